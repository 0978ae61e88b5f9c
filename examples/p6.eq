in a;
f = a*a;
out f;

in a;
f = a*f;
out f;

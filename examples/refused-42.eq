in a b;
f = a*c;
out f;

in a b;
f = a*b
out f;

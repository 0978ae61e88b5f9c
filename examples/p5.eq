in a b c;
f = a*b*c;
out f;

in a b c d;
f = a*b + c*d;
out f;

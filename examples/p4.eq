in a b c d;
p = a*b;
q = c*d;
r = !p;
s = !q;
f = !(r*s);
out f;

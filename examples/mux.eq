in a b s;
f = a*!s + b*s;
out f;

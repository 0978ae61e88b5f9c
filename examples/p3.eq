in a b;
f = a + a*b;
out f;

in a1 a0 b1 b0;
s0 = a0*!b0 + !a0*b0;
s1 = half*!carry + !half*carry;
over = a1*b1 + half*carry;
half = a1*!b1 + !a1*b1;
carry = a0*b0;
out over s1 s0;

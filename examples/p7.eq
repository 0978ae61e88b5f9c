in a;
out a;

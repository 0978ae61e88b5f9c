in set reset;
q = !(reset + other);
other = !(set + q);
out q;

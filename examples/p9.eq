in a;
f = !h;
g = !h;
h = !g;
out h;

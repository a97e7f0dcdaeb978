int f(int n) { return n + m; }

class P { int p; }

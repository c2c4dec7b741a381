class F { int a = 08; double d; }

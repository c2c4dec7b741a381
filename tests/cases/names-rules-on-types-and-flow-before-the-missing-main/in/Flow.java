class Flow { int f() { } }

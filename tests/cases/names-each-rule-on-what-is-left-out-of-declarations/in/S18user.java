class A { protected int b; }

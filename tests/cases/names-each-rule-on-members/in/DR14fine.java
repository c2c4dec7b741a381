class A { private void m() { } }
class B extends A { private int m() { return 1; } }

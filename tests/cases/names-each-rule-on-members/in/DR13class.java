interface I { Object m(); }
class A { public int m() { return 1; } }
class B extends A implements I { }

interface I { void m(); }
class A { public void m() { } }
class B extends A implements I { }

interface I { void m(); }
class A implements I { }
class B implements I, I { }

interface I { void m(); }
class A { void m() { } }
class B extends A implements I { }
interface J { int B; }

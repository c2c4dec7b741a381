interface I { void m(); }
class A { public void m() throws Exception { } }
abstract class B extends A implements I { }

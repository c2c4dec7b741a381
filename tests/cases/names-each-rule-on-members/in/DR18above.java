class A { public void m() { } }
abstract class B extends A { public abstract void m(); }
class C extends B { }

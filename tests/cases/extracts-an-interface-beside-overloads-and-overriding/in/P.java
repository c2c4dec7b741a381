class A { Object make() { return null; } void take(C c) { } }
class B extends A { C make() { return new C(); } void take(C c) { c.on(); } }
class C implements Runner { public void on() { } public String toString() { return "c"; } public void run() { } }
interface Runner { void run(); }
class M {
  void f(C x) { }
  void f(Object x) { System.out.println("object"); }
  void g(C y) { f(y); System.out.println(y); System.out.println("" + y + y.hashCode() * 0); }
  static C made(C c) { return c; }
  public static void main(String[] args) { new M().g(made(new B().make())); new B().take(new C()); }
}

class C { public void on() { System.out.println("on"); } public void off() { } }
class M {
  static C a(C c1) { C c2 = c1; return c2; }
  static void b(C c3) { C c4 = a(c3); C c5 = c4; c5.off(); }
  static void d(C c6) { c6.on(); Object o = c6; C[] row = { c6 }; }
  static Object e(boolean t, C x, C y) { y.on(); return t ? x : y; }
  static C f(boolean t, C z) { C w = t ? z : new C(); w.off(); return w; }
  public static void main(String[] args) { b(new C()); d(new C()); System.out.println(e(true, new C(), null) != null); f(true, new C()); }
}

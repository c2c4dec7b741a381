class C extends RuntimeException { int n; static int made; public int on() { return 1; } }
class M {
  static int f(C c) { return c.n; }
  static int g(C c) { return c.made; }
  static int h(C c) { try { throw c; } catch (C d) { return d.on(); } }
  static int i(C c) { return c.on(); }
  static boolean j(C c) { return c.equals(c) && (Object) c instanceof C; }
  public static void main(String[] args) { C c = new C(); System.out.println(f(c) + g(c) + h(c) + i(c) + "" + j(c)); }
}

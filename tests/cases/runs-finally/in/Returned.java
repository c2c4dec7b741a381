class Returned {
  static int n;
  static int t(int i) { System.out.print("t" + i + " "); return i; }
  static int a() { try { return t(1); } finally { t(2); } }
  static int b() { try { return t(1); } finally { return t(2); } }
  static int c() { n = 1; try { return n; } finally { n = 5; } }
  static int d() { try { throw new RuntimeException(); } finally { return t(3); } }
  static int e() { try { return 1 / n; } catch (ArithmeticException x) { return t(4); } finally { t(5); } }
  static int f() { try { return 1 / n; } catch (ArithmeticException x) { throw x; } finally { return t(6); } }
  static int g() { int i = 0; try { i = 1; return i; } finally { i = 2; try { return t(7); } finally { i = t(8); } } }
  static int h() { while (true) { try { return t(1); } finally { break; } } return t(9); }
  static int k() { int i = 0; do { try { return t(i); } finally { i++; continue; } } while (i < 3); return i; }
  static void v() { try { return; } finally { System.out.print("v "); } }
  public static void main(String[] x) {
    System.out.println(a());
    System.out.println(b());
    System.out.println(c() + n);
    System.out.println(d());
    n = 0;
    System.out.println(e());
    System.out.println(f());
    System.out.println(g());
    System.out.println(h());
    System.out.println(k());
    v();
  }
}

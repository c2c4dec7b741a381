class Replaced {
  static void a() throws Exception {
    try { throw new Exception("a"); } finally { System.out.print("fa "); }
  }
  static void b() throws Exception {
    try { throw new Exception("b"); } finally { System.out.print("fb "); throw new IndexOutOfBoundsException("b2"); }
  }
  static void c() throws Exception {
    try { throw new Exception("c"); } catch (Exception e) { throw new Exception(e.getMessage() + "c"); } finally { System.out.print("fc "); }
  }
  static void d() throws Exception {
    try { throw new Exception("d"); } catch (RuntimeException e) { System.out.print("no"); } finally { try { throw new Error("e"); } catch (Error e) { System.out.print(e.getMessage() + " "); } }
  }
  static void e() {
    try { try { int i = 0; i = i / i; } finally { System.out.print("in "); } } catch (ArithmeticException e) { System.out.print("out "); } finally { System.out.print("fe "); }
  }
  static void f() throws Exception {
    try { a(); } catch (Exception e) { System.out.print("cf "); throw e; } finally { e(); }
  }
  public static void main(String[] x) {
    for (int i = 0; i < 6; i++) {
      try {
        switch (i) { case 0: a(); case 1: b(); case 2: c(); case 3: d(); case 4: e(); case 5: f(); }
      } catch (Exception e) { System.out.println(e); }
      finally { System.out.println("=" + i); }
    }
  }
}

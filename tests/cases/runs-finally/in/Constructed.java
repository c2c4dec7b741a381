class Constructed {
  int n;
  static Constructed kept;
  Constructed(int n) {
    try { kept = this; if (n == 1) return; if (n == 2) throw new IndexOutOfBoundsException(); this.n = 10 / n; }
    finally { this.n += 100; }
    this.n += 1000;
  }
  public static void main(String[] x) {
    System.out.println(new Constructed(1).n + " " + new Constructed(5).n);
    for (int i = 0; i < 3; i += 2) {
      try { new Constructed(i); } catch (RuntimeException e) { System.out.println(kept.n + " " + (e instanceof ArithmeticException)); continue; } finally { kept = null; }
      System.out.println("never");
    }
    Constructed c = null;
    try { c = new Constructed(0); } catch (ArithmeticException e) { e = null; }
    System.out.println(c == null);
  }
}

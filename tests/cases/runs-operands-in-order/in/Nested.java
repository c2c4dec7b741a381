class Nested {
  static int n;
  static int t() { return ++n; }
  static int f(int a, int b) { System.out.print("f" + a + b + " "); return a * 10 + b; }
  static boolean b(int i) { System.out.print("b" + i + " "); return i > 2; }
  public static void main(String[] x) {
    System.out.println(f(f(t(), t()), f(t(), t())));
    int[][] a = { { 1, 2 }, { 3, 4 } };
    n = -1;
    System.out.println(a[t()][t()] - a[t() - 1][n -= 2]);
    n = 0;
    System.out.println(b(t()) ? b(t()) ? 1 : 2 : b(t()) ? 3 : 4);
    while (b(t()) == (n > 3)) if (n > 6) break;
    System.out.println(n);
    for (int i = f(0, 0); i < f(0, 2); i += f(0, 1)) System.out.print("turn ");
    System.out.println();
    switch (f(0, t())) { case 8: System.out.println("eight"); break; default: System.out.println(n); }
    System.out.println(((n = 4) + n) * (n++ - --n) + (n << (n = 1)) + n);
    String s = "" + (n == 1 ? "one" : 'x' + "") + (b(1) | b(3) && b(0));
    System.out.println(s);
    int v = t() > 1 && t() > 100 || t() > 3 ? t() : -t();
    System.out.println(v);
  }
}

class Scoped {
  static int v = 1;
  int w = 2;
  static int f(int v) { v = v + 1; { int w = v; v = w * 2; } return v; }
  int g(int w) { this.w = w; w = 9; return this.w + w; }
  public static void main(String[] x) {
    System.out.println(f(v) + " " + v);
    System.out.println(new Scoped().g(4));
    int v = 7;
    Scoped.v = v + 1;
    System.out.println(v + Scoped.v);
    for (int i = 0; i < 2; i++) { int k; if (i == 0) k = 5; else k = 6; System.out.print(k); }
    for (int i = 5; i < 6; i++) System.out.println(i);
    final int once = v;
    System.out.println(once);
    int a = 1, b = a + 1, c[] = { a, b };
    System.out.println(c[0] + c[1] * 10);
  }
}

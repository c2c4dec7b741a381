class Called {
  static int n;
  int f;
  static int t(int i) { System.out.print(i); n = n * 10 + i; return i; }
  static Called c(String s) { System.out.print(s); return new Called(); }
  Called with(int a, int b) { System.out.print("w"); f = a * 10 + b; return this; }
  Called() { }
  Called(int a, int b, int c) { System.out.print("n" + a + b + c); }
  public static void main(String[] x) {
    System.out.println(c("r").with(t(1), t(2)).with(t(3), t(n)).f);
    new Called(t(4), t(5), t(6) - t(7));
    System.out.println();
    int i = 0;
    System.out.println(sum(i++, i++, i++) + i);
    System.out.println(n);
  }
  static int sum(int a, int b, int c) { return a * 100 + b * 10 + c; }
}

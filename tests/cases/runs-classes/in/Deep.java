class Deep {
  int n;
  Deep next;
  Deep(int n) { this.n = n; next = n == 0 ? null : new Deep(n - 1); }
  int sum() { return next == null ? n : n + next.sum(); }
  static int down(int n) { if (n == 0) return 0; return 1 + down(n - 1); }
  static boolean even(int n) { return n == 0 || odd(n - 1); }
  static boolean odd(int n) { return n != 0 && even(n - 1); }
  static int fib(int n) { return n < 2 ? n : fib(n - 1) + fib(n - 2); }
  public static void main(String[] x) {
    System.out.println(down(3000));
    System.out.println(even(1501));
    System.out.println(new Deep(500).sum());
    System.out.println(fib(11));
  }
}

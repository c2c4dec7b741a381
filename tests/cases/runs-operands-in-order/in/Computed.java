class Computed {
  static int i(int v) { System.out.print(v + " "); return v; }
  static long l(long v) { System.out.print(v + "L "); return v; }
  static String s(String v) { System.out.print(v + "$ "); return v; }
  public static void main(String[] x) {
    System.out.println(i(1) + i(2) * i(3) - i(4) / i(5));
    System.out.println((i(1) + i(2)) * (i(3) - i(4)) % i(5));
    System.out.println(s("a") + i(1) + i(2) + s("b"));
    System.out.println(i(1) + i(2) + s("b") + (i(3) + l(4)));
    System.out.println(i(7) << i(2) >> i(1) < l(3));
    System.out.println(i(6) & i(3) | i(8) ^ i(9));
    System.out.println(-i(3) - -i(4) + ~i(5));
  }
}

class Compared {
  static String all(long a, long b) { return (a < b) + " " + (a <= b) + " " + (a > b) + " " + (a >= b) + " " + (a == b) + " " + (a != b); }
  public static void main(String[] x) {
    System.out.println(all(1, 2) + all(2, 1) + all(-1, 'a') + all(2147483648L, -2147483648));
    char c = (char) 65535;
    int i = 65535;
    System.out.println((c == i) + " " + (c > -1) + " " + (c < 65536L) + " " + (-c) + " " + (~c) + " " + (+c));
    boolean p = true, q = false;
    System.out.println((p & q) + " " + (p | q) + " " + (p ^ q) + " " + (p ^ p) + " " + (p == q) + " " + (p != q) + " " + !q);
    System.out.println(5 - 3 - 1 + " " + 100 / 10 / 5 + " " + 7 % 4 % 2 + " " + (1 << 2 << 1) + " " + (2 + 3 << 1) + " " + (6 & 3 + 1) + " " + (1 | 2 ^ 3 & 2));
    System.out.println(-5 >> 1 + 1);
    System.out.println(1 < 2 == true ^ 3 > 2);
    System.out.println(- - 3 - -3 + ~-1);
    System.out.println((int) 3000000000L / 2 + (long) 1 * 2147483647 * 2);
    System.out.println(2147483647 + 1 + 1L + " " + (2147483647 + (1 + 1L)));
    System.out.println(1000000 * 1000000 + " " + 1000000L * 1000000);
  }
}

class Powers {
  static long gcd(long a, long b) { return b == 0 ? a : gcd(b, a % b); }
  static int power(int b, int e) { int r = 1; while (e > 0) { if ((e & 1) == 1) r *= b; b *= b; e >>= 1; } return r; }
  static long factorial(int n) { return n < 2 ? 1 : n * factorial(n - 1); }
  public static void main(String[] x) {
    System.out.println(gcd(1071, 462) + " " + gcd(-12, 18) + " " + gcd(-9223372036854775808L, -1));
    System.out.println(power(3, 19) + " " + power(3, 20) + " " + power(-2, 31) + " " + power(2, 32));
    System.out.println(factorial(20) + " " + factorial(21) + " " + factorial(25));
    int h = 7;
    for (int i = 0; i < 10; i++) h = h * 1664525 + 1013904223 ^ h >>> 16;
    System.out.println(h);
    long f = 1, g = 1;
    for (int i = 0; i < 100; i++) { long t = f + g; f = g; g = t; }
    System.out.println(g);
  }
}

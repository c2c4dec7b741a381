class Shifted {
  public static void main(String[] x) {
    int i = 1, m = -8;
    long l = 1, n = -8;
    System.out.println((i << 33) + " " + (i << -1) + " " + (i << 31) + " " + (i << 32));
    System.out.println((m >> 1) + " " + (m >>> 1) + " " + (m >> 33) + " " + (m >>> -1) + " " + (m >> 31));
    System.out.println((l << 33) + " " + (l << -1) + " " + (l << 63) + " " + (l << 64));
    System.out.println((n >> 1) + " " + (n >>> 1) + " " + (n >> 65) + " " + (n >>> -1));
    System.out.println((i << 33L) + " " + (i << 4294967297L) + " " + (l << 'a'));
    char c = 'a';
    System.out.println((c << 1) + " " + (c >> 1) + " " + (c >>> 33));
    m >>>= 28;
    System.out.println(m);
    m <<= 4294967298L;
    System.out.println(m);
    n >>= 2;
    System.out.println(n);
    c <<= 9;
    System.out.println((int) c);
    c >>= 1;
    System.out.println((int) c);
    System.out.println((5 & 3) + (5 | 3) * 10 + (5 ^ 3) * 100 + (-1L & 0xffffffffL));
    System.out.println((-1 & 0xffffffffL) + " " + ('a' | 256) + " " + ('a' ^ 'b'));
  }
}

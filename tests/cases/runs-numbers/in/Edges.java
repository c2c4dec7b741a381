class Edges {
  public static void main(String[] x) {
    int min = -2147483648, max = 2147483647, m1 = -1;
    long lmin = -9223372036854775808L, lmax = 9223372036854775807L;
    System.out.println(min / m1);
    System.out.println(min % m1);
    System.out.println(lmin / m1);
    System.out.println(lmin % m1);
    System.out.println(max + 1);
    System.out.println(min - 1);
    System.out.println(-min);
    System.out.println(-lmin);
    System.out.println(max * max);
    System.out.println(lmax * 3);
    System.out.println(max * 2L);
    System.out.println(-7 / 2 + " " + -7 % 2 + " " + 7 / -2 + " " + 7 % -2);
    System.out.println(-7L / 2 + " " + -7L % 2 + " " + 7 % -2L);
    System.out.println(~min + " " + ~0L);
    System.out.println(0x7fffffff + 0x80000000 + 0xFFFFFFFF + 017);
    System.out.println(0xffffffffffffffffL + 0x10L);
    System.out.println(min == -min);
    max++;
    System.out.println(max);
    lmax++;
    System.out.println(lmax);
  }
}

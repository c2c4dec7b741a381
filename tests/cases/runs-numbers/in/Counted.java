class Counted {
  static int s;
  int f;
  static long[] a = new long[2];
  public static void main(String[] x) {
    int i = 5;
    System.out.println(i++ + ++i + i-- - --i);
    System.out.println(s++ + s + --s);
    Counted c = new Counted();
    c.f++;
    ++c.f;
    System.out.println(c.f-- * 10 + c.f);
    i = 0;
    a[i++]++;
    a[i--]--;
    System.out.println(a[0] + " " + a[1] + " " + i);
    a[0] += a[0]++ + ++a[0];
    System.out.println(a[0]);
    i = i++;
    System.out.println(i);
    i = i++ + i++;
    System.out.println(i);
    i = - -i + + +i - (-i);
    System.out.println(i);
    int p, q, r;
    p = q = r = 4;
    p += q -= r *= 2;
    System.out.println(p + " " + q + " " + r);
    boolean b;
    System.out.println((b = p == 0) | b);
  }
}

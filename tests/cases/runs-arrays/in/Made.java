class Made {
  boolean b;
  static char[] c = { 'a', (char) 98, (char) 99 };
  public static void main(String[] x) {
    int[] i = new int[2];
    long[][] l = new long[2][3];
    String[][][] s = new String[1][2][];
    boolean[] b = new boolean[1];
    char[] d = new char[1];
    System.out.println(i[0] + " " + l[1][2] + " " + s[0][1] + " " + b[0] + " " + (int) d[0] + new Made().b);
    System.out.println(l.length + " " + l[0].length + " " + s[0].length);
    System.out.println(l[0] == l[1]);
    l[0][0] = 5;
    System.out.println(l[1][0]);
    l[1] = l[0];
    l[1][1]++;
    System.out.println(l[0][1]);
    int[][] t = { { }, { 1 }, null, { 1, 2, 3 } };
    System.out.println(t[3][2] + t[1].length + t[0].length);
    System.out.println(c[2]);
    System.out.println((new int[] { 4, 5 })[1] + new int[3].length);
    int j = 1;
    int[] k = { j++, j++, j };
    System.out.println(k[0] + k[1] * 10 + k[2] * 100);
    i['a' - 96] = 'a';
    System.out.println(i[1]);
    Object[] o = { "a", null, new int[0], o = null };
    System.out.println(o.length);
    int[] e = new int[0];
    System.out.println(e.length);
    System.out.println(e.equals(e) + " " + e.equals(new int[0]) + (e.hashCode() == e.hashCode()));
    long[] big = { 1, 'c', -1L };
    System.out.println(big[1]);
    int[] f = new int[0][0][0].length == 0 ? i : k;
    System.out.println(f == i);
    int[][] z = new int[0][-x.length];
    System.out.println(z.length);
  }
}

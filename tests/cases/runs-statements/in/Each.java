class Each {
  static int[] make(String s) { System.out.print(s); return new int[] { 3, 1, 2 }; }
  public static void main(String[] x) {
    int sum = 0;
    for (int i : make("once ")) { if (i == 1) continue; sum += i; System.out.print(i); }
    System.out.println(" " + sum);
    int[] a = { 1, 2, 3, 4 };
    for (int i : a) { if (i == 3) break; a[i] = 9; i = 7; System.out.print(i); }
    for (final int i : a) System.out.print(i);
    System.out.println();
    char[][] c = { { 'a', 'b' }, { }, { 'c' } };
    for (char[] r : c) { for (char k : r) System.out.print(k); System.out.print('/'); }
    for (int k : c[0]) System.out.print(k);
    for (long k : a) System.out.print(k + 10000000000L);
    System.out.println();
    String[] s = { "p", null, "q" };
    for (Object o : s) { s = null; System.out.print(o); }
    int[] b = { 5, 6 };
    for (int i : b) { b = new int[] { 7, 8, 9 }; System.out.print(i); }
    System.out.println(b.length);
    b = null;
    for (int i : b) System.out.println(i);
  }
}

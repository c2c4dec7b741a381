class Sorted {
  static void sort(int[] a) {
    for (int i = 1; i < a.length; i++) {
      int v = a[i], j = i;
      while (j > 0 && a[j - 1] > v) { a[j] = a[j - 1]; j--; }
      a[j] = v;
    }
  }
  static int find(int[] a, int v) {
    int lo = 0, hi = a.length - 1;
    while (lo <= hi) {
      int m = (lo + hi) >>> 1;
      if (a[m] == v) return m;
      if (a[m] < v) lo = m + 1; else hi = m - 1;
    }
    return -lo - 1;
  }
  public static void main(String[] x) {
    int[] a = { 5, -3, 9, 0, 5, 2147483647, -2147483648, 1 };
    sort(a);
    for (int v : a) System.out.print(v + " ");
    System.out.println();
    System.out.println(find(a, 9) + " " + find(a, 4) + " " + find(a, -2147483648));
  }
}

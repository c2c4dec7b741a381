class Halted {
  static int i(String s, int v) { System.out.print(s); return v; }
  static int bad(String s) { System.out.print(s); throw new RuntimeException(s); }
  static int[] none(String s) { System.out.print(s); return null; }
  public static void main(String[] x) {
    int[] a = new int[2];
    int k = 0;
    try { a[i("a", 5)] = i("b", 1); } catch (ArrayIndexOutOfBoundsException e) { System.out.println(" index"); }
    try { none("n")[i("a", 0)] = i("b", 1); } catch (NullPointerException e) { System.out.println(" null"); }
    try { none("n")[bad("!")] = i("b", 1); } catch (RuntimeException e) { System.out.println(e.getMessage()); }
    try { a[i("a", 9)] = bad("!"); } catch (RuntimeException e) { System.out.println(e.getMessage()); }
    try { a[i("a", 9)] += i("b", 1); } catch (ArrayIndexOutOfBoundsException e) { System.out.println(" index"); }
    try { k = i("a", 1) / i("z", 0) + i("c", 1); } catch (ArithmeticException e) { System.out.println(k); }
    try { k = i("a", 4) + bad("!"); } catch (RuntimeException e) { System.out.println(k); }
    try { k += bad("!"); } catch (RuntimeException e) { System.out.println(k); }
    try { k++; k = k / (k - 1); k = bad("x"); } catch (RuntimeException e) { System.out.println(k); }
    int[][] b = null;
    try { b = new int[i("p", 2)][i("q", -1)]; } catch (NegativeArraySizeException e) { System.out.println(b == null); }
    try { b = new int[i("p", -2)][bad("q")]; } catch (RuntimeException e) { System.out.println(e.getMessage()); }
    Halted h = null;
    try { h.two(i("r", 1), i("s", 2)); } catch (NullPointerException e) { System.out.println(" null"); }
    try { h.f = i("t", 1); } catch (NullPointerException e) { System.out.println(" null"); }
    System.out.println(h.g + i("u", 1));
    h.three(i("v", 3));
  }
  int f;
  static int g = 5;
  void two(int a, int b) { System.out.println("never"); }
  static void three(int a) { System.out.println(a); }
}

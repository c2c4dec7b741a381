class InArithmetic {
  static int i = 9;
  static char c = 'c';
  static long l = 9;
  static int[] a = { 1 };
  public static void main(String[] x) {
    int zero = x.length;
    try { i /= zero; } catch (ArithmeticException e) { System.out.println(i); }
    try { c %= zero; } catch (ArithmeticException e) { System.out.println(c); }
    try { l /= l - 9; } catch (ArithmeticException e) { System.out.println(l); }
    try { a[zero++] /= zero - 1; } catch (ArithmeticException e) { System.out.println(a[0] + " " + zero); }
    try { i = i++ / (zero - 1); } catch (ArithmeticException e) { System.out.println(i); }
    try { System.out.println("lost" + 1 % (l - l)); } catch (ArithmeticException e) { System.out.println(e.getMessage()); }
    System.out.println(0 / 5 + 0 % 5 + " " + 5 / 'a' + " " + 'a' % 10L);
    System.out.println(l / (zero - 1));
  }
}

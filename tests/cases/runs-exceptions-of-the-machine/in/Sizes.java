class Sizes {
  public static void main(String[] x) {
    int n = -3;
    try { int[] a = new int[n]; } catch (NegativeArraySizeException e) { System.out.println(e); }
    try { Object a = new String[2][n][]; } catch (NegativeArraySizeException e) { System.out.println(e.getMessage()); }
    Object[] a = new Integer0[1];
    try { a[0] = "s"; } catch (ArrayStoreException e) { System.out.println("store"); }
    Object[] b = new int[1][];
    try { b[0] = new long[1]; } catch (ArrayStoreException e) { System.out.println("store"); }
    b[0] = new int[2];
    b[0] = null;
    System.out.println(b.length);
  }
}
class Integer0 { }

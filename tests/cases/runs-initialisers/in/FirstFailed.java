class FirstFailed {
  static int p = print();
  static int[] a = new int[2];
  static int v = a[2];
  static int print() { System.out.println("before"); return 1; }
  public static void main(String[] x) { System.out.println("never"); }
}

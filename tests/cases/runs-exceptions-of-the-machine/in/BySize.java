class BySize {
  static int size(int n) { return n == 0 ? -1 : size(n - 1); }
  public static void main(String[] x) { System.out.println(new char[size(4)]); }
}

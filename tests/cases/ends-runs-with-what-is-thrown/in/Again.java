class Again {
  static RuntimeException kept = new IndexOutOfBoundsException("kept");
  public static void main(String[] x) {
    try { throw kept; } catch (RuntimeException e) { System.out.println(e == kept); }
    try { throw kept; } finally { System.out.println("finally"); kept = null; }
  }
}

class Ended {
  static int depth;
  static void down(int n) {
    try { if (n == 0) throw new IndexOutOfBoundsException("end"); down(n - 1); }
    finally { depth++; System.out.print(n + " "); }
  }
  public static void main(String[] x) {
    try { down(3); }
    finally { System.out.println("depth " + depth); }
  }
}

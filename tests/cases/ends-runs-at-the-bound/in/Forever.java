class Forever {
  public static void main(String[] x) {
    System.out.print("begins");
    try { while (true) { } } finally { System.out.print("never"); }
  }
}

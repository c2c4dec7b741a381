class ByZero {
  public static void main(String[] x) {
    System.out.println("before");
    int i = 5 / (x.length * 3);
    System.out.println("after");
  }
}

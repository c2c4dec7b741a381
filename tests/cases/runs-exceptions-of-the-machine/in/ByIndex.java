class ByIndex {
  public static void main(String[] x) {
    System.out.println(x.length);
    x[0] = "never";
    System.out.println("after");
  }
}

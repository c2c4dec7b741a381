class A {
  public static void main(String[] args) {
    System.out.println(1 - 2);
  }
}

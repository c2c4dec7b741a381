class ByNull {
  String s;
  public static void main(String[] x) {
    System.out.print("before");
    System.out.println(new ByNull().s.length());
  }
}

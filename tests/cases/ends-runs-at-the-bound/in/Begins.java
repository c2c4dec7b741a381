class Begins {
  static int a = print("i");
  static int print(String s) { System.out.print(s); return 1; }
  public static void main(String[] x) { System.out.print("main"); }
}

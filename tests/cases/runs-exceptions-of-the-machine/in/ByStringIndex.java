class ByStringIndex {
  public static void main(String[] x) {
    String s = "four";
    for (int i = 0; ; i++) System.out.print(s.charAt(i));
  }
}

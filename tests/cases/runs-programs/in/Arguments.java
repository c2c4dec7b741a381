class Arguments {
  public static void main(String[] x) {
    System.out.println(x.length);
    for (String s : x) System.out.println(s + " " + s.length());
    if (x.length > 2) System.out.println((x[0] == "one") + " " + x[0].equals("one") + (x[2].charAt(0) - '0'));
    x = null;
  }
}

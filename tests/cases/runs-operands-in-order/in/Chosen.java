class Chosen {
  static boolean b(String s, boolean v) { System.out.print(s); return v; }
  static int i(String s, int v) { System.out.print(s); return v; }
  public static void main(String[] x) {
    System.out.println(b("a", true) ? i("b", 1) : i("c", 2));
    System.out.println(b("a", false) ? i("b", 1) : b("d", true) ? i("e", 3) : i("f", 4));
    System.out.println(b("a", false) && b("b", true) || b("c", true) && b("d", false));
    System.out.println(b("a", true) || b("b", true) && b("c", true));
    System.out.println(b("a", false) & b("b", true) | b("c", true) ^ b("d", true));
    boolean v = true;
    v &= b("e", false);
    System.out.println(v);
    v |= b("f", true);
    System.out.println(v);
    v ^= b("g", true);
    System.out.println(v);
    System.out.println(!b("h", v) == b("i", true) != b("j", false));
  }
}

class Same {
  static final String HELLO = "hel" + "lo";
  static int n = 3;
  final String own = "lo";
  static String lo = "lo";
  public static void main(String[] x) {
    String a = "hello";
    String p = "hel";
    System.out.println(a == "hello");
    System.out.println(a == "hel" + "lo");
    System.out.println(a == HELLO);
    System.out.println(a == Other.HELLO);
    System.out.println(a == p + "lo");
    System.out.println(a == "hel" + lo);
    System.out.println(a == "hel" + new Same().own);
    System.out.println("a1true" == 'a' + "" + 1 + true);
    System.out.println("25-1" == "" + 25 + "-" + 1L);
    System.out.println(a.substring(0, 5).equals(a));
    System.out.println("ab" == (n > 2 ? "a" + "b" : "c"));
    System.out.println((Object) "ab" == (Object) ("a" + 'b'));
    String b = a;
    b += "";
    System.out.println(b == a);
    System.out.println(b.equals(a));
  }
}
class Other { static final String HELLO = "hello"; }

class Printed {
  public String toString() { return null; }
  public static void main(String[] x) {
    System.out.print('c');
    System.out.print(7);
    System.out.print(7L);
    System.out.print(true);
    System.out.print("s");
    Object o = null;
    System.out.print(o);
    String s = null;
    System.out.print(s);
    System.out.print(new char[] { 'a', 'b' });
    System.out.print((char) 66);
    System.out.print('a' + 1);
    System.out.println();
    System.out.println('c');
    System.out.println(new char[] { });
    System.out.println(o);
    System.out.println(s);
    System.out.println(new RuntimeException("r"));
    System.out.println(new Printed() + "|");
    System.out.println(new Printed());
    System.out.println((Object) "object");
    System.out.println(x.length == 0 ? 'a' : 'b');
    System.out.println(x.length == 0 ? 'a' : (char) 7);
    System.out.println(x.length == 0 ? 1 : 2L);
    char[] none = null;
    try { System.out.println(none); } catch (NullPointerException e) { System.out.println("none"); }
  }
}

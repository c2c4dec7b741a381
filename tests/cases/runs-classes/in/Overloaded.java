class Overloaded {
  static String f(Object o) { return "Object "; }
  static String f(String s) { return "String "; }
  static String g(int i) { return "int "; }
  static String g(long l) { return "long "; }
  static String g(Object o) { return "Object "; }
  static String h(long l) { return "long "; }
  static String k(Object[] a) { return "Object[] "; }
  static String k(Object o) { return "Object "; }
  static String k(String[] a) { return "String[] "; }
  String m(Overloaded o) { return "a"; }
  String m(Object o) { return "b"; }
  public static void main(String[] x) {
    Object o = "s";
    System.out.println(f(null) + f(o) + f("s") + f((Object) "s") + f((String) o));
    System.out.println(g('c') + g(1) + g(1L) + g("") + h('c') + h(2));
    System.out.println(k(x) + k((Object) x) + k(new int[0]) + k(new int[0][0]) + k((Object[]) x) + k("s"));
    Overloaded a = new Overloaded(), b = new Under();
    System.out.println(a.m(a) + b.m(b) + b.m((Object) b) + new Under().m(new Under()) + new Under().m("") + b.m(null));
  }
}
class Under extends Overloaded {
  String m(Overloaded o) { return "c"; }
  String m(Under o) { return "d"; }
}

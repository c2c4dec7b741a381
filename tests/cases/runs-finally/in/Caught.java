class Caught {
  static class1 first(int i) throws class1, class2 {
    if (i == 0) throw new class1("one");
    if (i == 1) throw new class2("two");
    return new class1("given");
  }
  public static void main(String[] x) throws Exception {
    for (int i = 0; i < 3; i++) {
      try { System.out.println(first(i)); }
      catch (class2 e) { System.out.println("2 " + e.getMessage() + e.more()); }
      catch (class1 e) { System.out.println("1 " + e.getMessage() + e.more()); }
    }
    try { try { first(1); } catch (class1 e) { System.out.println(e.more()); throw e; } }
    catch (Exception e) { System.out.println(e instanceof class2); }
    first(0);
  }
}
class class1 extends Exception { class1(String s) { super(s); } String more() { return "-"; } }
class class2 extends class1 {
  class2(String s) { super(s + "!"); }
  String more() { return "+" + super.more(); }
  public String toString() { return "class2"; }
}

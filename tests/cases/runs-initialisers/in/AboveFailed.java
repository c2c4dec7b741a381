class AboveFailed {
  public static void main(String[] x) {
    try { Below.touch(); } catch (ExceptionInInitializerError e) { System.out.println("first"); }
    try { Below.touch(); } catch (NoClassDefFoundError e) { System.out.println("second"); }
    try { new Above(); } catch (NoClassDefFoundError e) { System.out.println("above"); }
    try { System.out.println(Fields.TWO); } catch (ExceptionInInitializerError e) { System.out.println("fields"); }
    System.out.println(Fields.ONE);
    Below b = null;
    System.out.println(b instanceof Above);
    try { b.own = 1; } catch (NullPointerException e) { System.out.println("null"); }
    new Below();
  }
}
class Above { static Object o = "text"; static Above a = (Above) o; }
class Below extends Above { int own; static int v = print(); static int print() { System.out.println("never"); return 1; } static void touch() { } }
interface Fields { int ONE = 1; int TWO = new int[0][0] == null ? 1 : 8 / (ONE - ONE); }

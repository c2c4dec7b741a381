class Failed {
  public static void main(String[] x) {
    for (int i = 0; i < 3; i++) {
      try { System.out.println(Bad.v); }
      catch (ExceptionInInitializerError e) { System.out.println("first " + e.getMessage()); }
      catch (NoClassDefFoundError e) { System.out.println("again"); }
    }
    try { new Below(); } catch (LinkageError e) { System.out.println(e instanceof NoClassDefFoundError); }
    try { new Below(); } catch (NoClassDefFoundError e) { System.out.println("below"); }
    try { Bad.f(); } catch (NoClassDefFoundError e) { System.out.println("call"); }
    System.out.println(Bad.TEXT);
    try { Worse.v++; } catch (Error e) { System.out.println(e); }
    try { Worse.v++; } catch (Error e) { System.out.println(e instanceof NoClassDefFoundError); }
    Worse w = null;
    System.out.println(w == null);
    System.out.println(Bad.f());
  }
}
class Bad {
  static final String TEXT = "constant";
  static int zero;
  static int v = 1 / zero;
  static int f() { return 1; }
}
class Below extends Bad { }
class Worse { static int v = fail(); static int fail() { throw new Error("worse"); } }

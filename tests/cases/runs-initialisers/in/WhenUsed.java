class WhenUsed {
  static int s(String t) { System.out.print(t + " "); return 1; }
  public static void main(String[] x) {
    A a = null;
    s("null");
    A[] as = new A[3];
    s("array");
    s("" + (a instanceof A));
    s(B.TEXT);
    s("constant");
    s("" + B.inherited);
    s("up");
    s("" + B.own);
    C.f();
    s("" + I.TWO);
    new D();
    s("" + D.own);
    D[] ds = { };
    E.v = 3;
    s("" + E.v);
    System.out.println();
  }
}
class A { static int inherited = WhenUsed.s("A!"); }
class B extends A { static final String TEXT = "t" + 1; static int own = WhenUsed.s("B!"); }
class C { static int c = WhenUsed.s("C!"); static void f() { WhenUsed.s("f" + c); } }
interface I { int ONE = WhenUsed.s("I!"); int TWO = ONE + 1; }
class D implements J { static int own = WhenUsed.s("D!"); }
interface J { int ONE = WhenUsed.s("never"); }
class E { static int v = WhenUsed.s("E!"); }

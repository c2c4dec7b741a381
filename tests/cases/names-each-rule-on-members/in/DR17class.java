interface I { void m(); }
class A { public static void m() { } }
  abstract class B extends A implements I { }

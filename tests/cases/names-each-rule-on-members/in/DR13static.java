class A { static Object m() { return null; } }
class B extends A {
  static int m() { return 1; }
}

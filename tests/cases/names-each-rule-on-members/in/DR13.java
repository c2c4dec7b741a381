class A { long m() { return 1; } }
class B extends A {
  int m() { return 1; }
}

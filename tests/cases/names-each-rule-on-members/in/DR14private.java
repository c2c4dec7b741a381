class A { void m() { } }
class B extends A {
  private void m() { }
}

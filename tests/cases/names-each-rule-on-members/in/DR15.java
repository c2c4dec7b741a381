class A { void m() throws RuntimeException { } }
class B extends A {
  void m() throws Error, Exception { }
}

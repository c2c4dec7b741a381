interface A {
  void m() { }
}

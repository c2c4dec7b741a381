class A {
  void m();
}

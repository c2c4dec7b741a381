class A {
  void m(int a, final long a) { }
}

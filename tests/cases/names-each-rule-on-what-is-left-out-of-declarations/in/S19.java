class A {
  void wait(int a) { }
}

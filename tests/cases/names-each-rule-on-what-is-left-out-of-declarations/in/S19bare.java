class A {
  void notify(int a) { }
  void clone() { }
}

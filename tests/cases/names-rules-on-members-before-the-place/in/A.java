class A {
  int a;
  String toString() { return null; }
}

class A {
  final A() { }
}

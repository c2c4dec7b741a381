interface A {
  final void m();
}

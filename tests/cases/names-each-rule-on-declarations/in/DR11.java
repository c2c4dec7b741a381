class A {
  A() { }
  B() { }
}

interface A {
  int A = 1, B;
}

class A {
  int a, b;
  long c, a;
}

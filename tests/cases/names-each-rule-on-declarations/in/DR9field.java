class A {
  abstract int a;
}

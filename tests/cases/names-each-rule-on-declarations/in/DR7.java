class A {
  A() { }
  A(int a[]) { }
  A(int[] b) { }
}

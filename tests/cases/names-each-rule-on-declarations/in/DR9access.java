class A {
  private public int a;
}

package l;
class A {
  int a;
  protected int b;
}

class A {
  public final public int a;
}

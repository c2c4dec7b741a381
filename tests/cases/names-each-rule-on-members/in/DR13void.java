class A { void m() { } }
class B extends A { }
class C extends B {
  public int m() { return 1; }
}

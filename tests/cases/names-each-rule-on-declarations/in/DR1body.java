class A {
  void m() { Strin s = (Strin) null; }
}

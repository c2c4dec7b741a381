import l.*;
class A {
  void m() { Object o = new Box<A>[1]; }
}

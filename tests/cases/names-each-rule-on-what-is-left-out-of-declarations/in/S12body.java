import l.*;
class A {
  void m() { Object o = new Box<Box>(); }
}

import l.*;
class A {
  void m(Box<A> a[]) { }
}

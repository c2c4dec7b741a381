import l.*;
class A {
  void m(Box<A> a) { }
  void m(Box<String> a) { }
}

import l.Pair;
class A {
  void m(Pair<A, A> a, Pair<A> b) { }
}

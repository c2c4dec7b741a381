package l;
class A<T> {
  void m(T a) { }
  void m(Object a) { }
}

package l;
class A<T> { void m(T a) { } }
class B<T> extends A<T> { }
class C<T> extends A<T> { void m(Object a) { } }

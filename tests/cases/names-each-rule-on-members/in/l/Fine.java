package l;
class A<T> { void m(T a) { } }
class C extends A<String> { void m(String a) { } }
class D extends A<Object> { void m(Object a) { } }

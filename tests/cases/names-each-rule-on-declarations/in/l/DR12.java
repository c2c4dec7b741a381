package l;
class A<T> { }
class B<T> extends Exception { }

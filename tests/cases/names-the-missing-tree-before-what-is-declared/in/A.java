class A<T> { }

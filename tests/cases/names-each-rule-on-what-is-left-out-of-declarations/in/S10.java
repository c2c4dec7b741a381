class A { }
interface B<T> { }

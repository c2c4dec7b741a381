package l;
class A { }
public class B<T, S, T> { }

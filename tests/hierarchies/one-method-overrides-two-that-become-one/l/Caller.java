package l;

public class Caller<T> {
    public void call(A<T> a, T x) { a.m(x); }
}

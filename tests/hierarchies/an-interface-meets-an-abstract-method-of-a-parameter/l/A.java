package l;

public abstract class A<T> {
    public abstract void m(T x);
}

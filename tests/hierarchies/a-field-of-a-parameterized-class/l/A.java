package l;

public class A<T> {
    public T x;
}

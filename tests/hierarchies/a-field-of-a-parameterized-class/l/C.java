package l;

public class C<T> extends A<T> {
    public T x;
}

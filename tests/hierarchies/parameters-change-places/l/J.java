package l;

public interface J<S, T> extends I<T, S> {
    void m(T x, S y);
}

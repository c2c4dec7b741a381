package l;

public interface I<T> {
    void m(T x);
}

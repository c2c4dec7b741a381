package l;

public interface K<T> {
    void m(T x);
}

package l;

public interface I<S, T> {
    void m(S x, T y);
}

package l;

public interface I {
    void m(String x);
}

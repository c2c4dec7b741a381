package l;

public interface J {
    void m(String x);
}

package l;

public interface J extends K<String> {
    void m(String x);
}

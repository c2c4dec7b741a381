package l;

public interface K extends I<String> {
    void m(String x);
}

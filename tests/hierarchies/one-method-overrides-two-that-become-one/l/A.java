package l;

public class A<T> {
    public void m(T x) { System.out.println("A.m(T)"); }
    public void m(String x) { System.out.println("A.m(String)"); }
}

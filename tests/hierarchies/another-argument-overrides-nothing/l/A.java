package l;

public class A<T> {
    public void m(T x) { System.out.println("A.m(T)"); }
}

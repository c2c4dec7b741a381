package l;

public class A<T> {
    public T m(T x) { System.out.println("A.m(T)"); return x; }
}

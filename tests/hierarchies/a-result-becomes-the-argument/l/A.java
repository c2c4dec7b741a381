package l;

public class A<T> {
    public T m() { System.out.println("A.m()"); return null; }
}

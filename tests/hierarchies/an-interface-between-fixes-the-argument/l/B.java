package l;

public class B extends A {
    public void m(String x) { System.out.println("B.m(String)"); }
}

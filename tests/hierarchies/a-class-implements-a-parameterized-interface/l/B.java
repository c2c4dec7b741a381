package l;

public class B {
    public void m(String x) { System.out.println("B.m(String)"); }
}

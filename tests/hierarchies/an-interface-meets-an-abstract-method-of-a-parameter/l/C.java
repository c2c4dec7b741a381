package l;

public class C extends B {
    public void m(String x) { System.out.println("C.m(String)"); }
}

package l;

public class C {
    public void m(String x) { System.out.println("C.m(String)"); }
}

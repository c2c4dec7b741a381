package l;

public class F extends C {
    public void m(String x) { System.out.println("F.m(String)"); }
}

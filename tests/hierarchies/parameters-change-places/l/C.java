package l;

public class C implements J<Exception, String> {
    public void m(String x, Exception y) { System.out.println("C.m(String, Exception)"); }
}

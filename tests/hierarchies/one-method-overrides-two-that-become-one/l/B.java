package l;

public class B extends A<String> {
    public void m(String x) { System.out.println("B.m(String)"); }
}

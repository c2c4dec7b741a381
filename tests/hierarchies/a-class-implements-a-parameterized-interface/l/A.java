package l;

public class A implements I<String> {
    public void m(String x) { System.out.println("A.m(String)"); }
}

package l;

public class A {
    private void m(G<String> x) { System.out.println("A.m(G<String>)"); }
    public void call(G<String> x) { m(x); }
}

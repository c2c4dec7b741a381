package l;

public class B extends A {
    public void m(G x) { System.out.println("B.m(G)"); }
}

package l;

public class B extends A<String> {
    public void m(Exception x) { System.out.println("B.m(Exception)"); }
}

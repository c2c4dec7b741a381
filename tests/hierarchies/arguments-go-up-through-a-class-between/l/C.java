package l;

public class C extends B<String> {
    public String m(String x) { System.out.println("C.m(String)"); return x; }
}

package l;

public class B extends A<String> {
    public String m() { System.out.println("B.m()"); return "s"; }
}

package l;

public class Base {
    public void call() { System.out.println("Base.call()"); m(); }
    public void m() { System.out.println("Base.m()"); }
}

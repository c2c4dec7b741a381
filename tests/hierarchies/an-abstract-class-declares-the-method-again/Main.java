interface I {
    void m();
}

abstract class A implements I {
    public abstract void m();
}

class B extends A {
    public void m() { System.out.println("B.m()"); }
}

class Main {
    public static void main(String[] args) {
        I x = new B();
        x.m();
        A y = new B();
        y.m();
    }
}

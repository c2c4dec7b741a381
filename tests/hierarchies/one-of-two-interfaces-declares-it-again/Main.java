interface I {
    void m();
}

interface J extends I {
    void m();
}

interface K extends I { }

abstract class A implements J, K { }

class B extends A {
    public void m() { System.out.println("B.m()"); }
}

class Main {
    public static void main(String[] args) {
        I x = new B();
        x.m();
        K y = new B();
        y.m();
        A z = new B();
        z.m();
    }
}

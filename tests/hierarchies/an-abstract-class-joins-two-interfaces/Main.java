interface I {
    void m();
}

interface J {
    void m();
}

abstract class A implements I, J { }

class B extends A {
    public void m() { System.out.println("B.m()"); }
}

class Main {
    public static void main(String[] args) {
        I x = new B();
        x.m();
        J y = new B();
        y.m();
        A z = new B();
        z.m();
    }
}

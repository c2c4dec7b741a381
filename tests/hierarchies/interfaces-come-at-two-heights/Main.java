interface I {
    void m();
}

interface J {
    void m();
}

abstract class A implements I { }

abstract class B extends A implements J { }

class C extends B {
    public void m() { System.out.println("C.m()"); }
}

class Main {
    public static void main(String[] args) {
        I x = new C();
        x.m();
        J y = new C();
        y.m();
        A z = new C();
        z.m();
    }
}

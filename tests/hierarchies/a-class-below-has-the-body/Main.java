interface I {
    void m();
}

abstract class A implements I { }

class B extends A {
    public void m() { System.out.println("B.m()"); }
}

class C extends B { }

class Main {
    public static void main(String[] args) {
        I x = new B();
        x.m();
        A y = new C();
        y.m();
    }
}

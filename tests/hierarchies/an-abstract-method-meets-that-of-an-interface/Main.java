abstract class A {
    public abstract void m();
}

interface I {
    void m();
}

abstract class B extends A implements I { }

class C extends B {
    public void m() { System.out.println("C.m()"); }
}

class Main {
    public static void main(String[] args) {
        A x = new C();
        x.m();
        I y = new C();
        y.m();
    }
}

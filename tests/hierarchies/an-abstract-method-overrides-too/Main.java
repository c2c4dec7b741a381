class A {
    void m() { System.out.println("A.m()"); }
}

abstract class B extends A {
    abstract void m();
}

class C extends B {
    void m() { System.out.println("C.m()"); }
}

class Main {
    public static void main(String[] args) {
        A x = new C();
        x.m();
        B y = new C();
        y.m();
        x = new A();
        x.m();
    }
}

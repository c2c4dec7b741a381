class A {
    void m() { System.out.println("A.m()"); }
}

class B extends A { }

class C extends B {
    void m() { System.out.println("C.m()"); }
}

class Main {
    public static void main(String[] args) {
        A x = new B();
        x.m();
        x = new C();
        x.m();
        B y = new B();
        y.m();
        y = new C();
        y.m();
    }
}

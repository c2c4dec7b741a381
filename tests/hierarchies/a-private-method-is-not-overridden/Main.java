class A {
    private void m() { System.out.println("A.m()"); }
    void call() { m(); }
}

class B extends A {
    void m() { System.out.println("B.m()"); }
}

class C extends B {
    void m() { System.out.println("C.m()"); }
}

class Main {
    public static void main(String[] args) {
        A x = new B();
        x.call();
        x = new C();
        x.call();
        B y = new B();
        y.m();
        y = new C();
        y.m();
    }
}

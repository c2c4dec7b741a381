class A {
    void m() { System.out.println("A.m()"); }
}

class B extends A {
    void m() { System.out.println("B.m()"); }
}

class C extends B { }

class D extends C { }

class Main {
    public static void main(String[] args) {
        A x = new D();
        x.m();
        C y = new C();
        y.m();
    }
}

interface I {
    void m();
}

class A {
    public void m() { System.out.println("A.m()"); }
}

class B extends A implements I { }

class C extends B {
    public void m() { System.out.println("C.m()"); }
}

class Main {
    public static void main(String[] args) {
        I x = new B();
        x.m();
        x = new C();
        x.m();
        A y = new C();
        y.m();
    }
}

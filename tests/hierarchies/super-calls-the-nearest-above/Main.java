class A {
    void m() { System.out.println("A.m()"); }
    void n() { System.out.println("A.n()"); m(); }
}

class B extends A { }

class C extends B {
    void m() { System.out.println("C.m()"); super.m(); }
}

class D extends C {
    void m() { System.out.println("D.m()"); super.m(); }
    void n() { System.out.println("D.n()"); super.n(); }
}

class Main {
    public static void main(String[] args) {
        A x = new D();
        x.m();
        x.n();
    }
}

class A {
    void m() { System.out.println("A.m()"); }
}

class B extends A {
    void m() { System.out.println("B.m()"); }
}

class C extends A {
    void m() { System.out.println("C.m()"); }
}

class Main {
    public static void main(String[] args) {
        A x = new B();
        x.m();
        x = new C();
        x.m();
    }
}

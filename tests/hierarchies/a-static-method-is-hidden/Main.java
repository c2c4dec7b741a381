class A {
    static void m() { System.out.println("A.m()"); }
}

class B extends A {
    static void m() { System.out.println("B.m()"); }
}

class C extends B { }

class Main {
    public static void main(String[] args) {
        A.m();
        B.m();
        C.m();
        A x = new B();
        x.m();
    }
}

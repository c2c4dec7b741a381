class A {
    void m() { System.out.println("A.m()"); }
    void m(int x) { System.out.println("A.m(int)"); }
}

class B extends A {
    void m(int y) { System.out.println("B.m(int)"); }
}

class Main {
    public static void main(String[] args) {
        A x = new B();
        x.m();
        x.m(1);
        x = new A();
        x.m(1);
    }
}

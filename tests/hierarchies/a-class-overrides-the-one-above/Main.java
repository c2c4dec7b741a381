class A {
    void m() { System.out.println("A.m()"); }
}

class B extends A {
    void m() { System.out.println("B.m()"); }
}

class Main {
    public static void main(String[] args) {
        A x = new A();
        x.m();
        x = new B();
        x.m();
    }
}

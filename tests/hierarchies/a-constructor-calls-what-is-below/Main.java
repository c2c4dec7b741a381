class A {
    A() { System.out.println("A()"); m(); }
    void m() { System.out.println("A.m()"); }
}

class B extends A {
    void m() { System.out.println("B.m()"); }
}

class Main {
    public static void main(String[] args) {
        new A();
        new B();
    }
}

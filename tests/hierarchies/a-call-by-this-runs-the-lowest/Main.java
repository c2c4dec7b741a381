class A {
    void m() { System.out.println("A.m()"); }
    void n() { System.out.println("A.n()"); this.m(); m(); }
}

class B extends A {
    void m() { System.out.println("B.m()"); }
}

class Main {
    public static void main(String[] args) {
        A x = new B();
        x.n();
    }
}

class A {
    void m() { System.out.println("A.m()"); }
    protected void n() { System.out.println("A.n()"); }
}

class B extends A {
    protected void m() { System.out.println("B.m()"); }
    public void n() { System.out.println("B.n()"); }
}

class C extends B {
    public void m() { System.out.println("C.m()"); }
}

class Main {
    public static void main(String[] args) {
        A x = new C();
        x.m();
        x.n();
        x = new B();
        x.m();
    }
}

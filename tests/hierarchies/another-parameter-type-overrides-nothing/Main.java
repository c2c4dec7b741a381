class A {
    void m(Object x) { System.out.println("A.m(Object)"); }
}

class B extends A {
    void m(String x) { System.out.println("B.m(String)"); }
}

class Main {
    public static void main(String[] args) {
        A x = new B();
        x.m("s");
        B y = new B();
        y.m("s");
        y.m(y);
    }
}

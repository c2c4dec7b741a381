class A {
    void m(Object x) { System.out.println("A.m(Object)"); }
}

class B extends A {
    static void m(String x) { System.out.println("B.m(String)"); }
}

class Main {
    public static void main(String[] args) {
        B b = new B();
        b.m("s");
        b.m(b);
        B.m("t");
        A a = b;
        a.m("s");
    }
}

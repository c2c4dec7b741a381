class A {
    static void m(int x) { System.out.println("A.m(int)"); }
    void m() { System.out.println("A.m()"); }
}

class B extends A {
    void m() { System.out.println("B.m()"); }
    private void m(long x) { System.out.println("B.m(long)"); }
    void call() { m(1L); m(1); m(); }
}

class C extends B { }

class Main {
    public static void main(String[] args) {
        C c = new C();
        c.call();
        c.m(1);
        c.m();
    }
}

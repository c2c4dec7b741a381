class A {
    public void m(int x) { System.out.println("A.m(int)"); }
}

class B extends A {
    private void m(long x) { System.out.println("B.m(long)"); }
    void call() { m(1L); }
}

class C extends B {
    void m(long x) { System.out.println("C.m(long)"); }
}

class Main {
    public static void main(String[] args) {
        B x = new C();
        x.call();
        C y = new C();
        y.m(1L);
        y.m(1);
    }
}

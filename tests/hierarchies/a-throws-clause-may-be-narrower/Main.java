class A {
    void m() throws Exception { System.out.println("A.m()"); }
    void call() { try { m(); } catch (Exception e) { System.out.println("caught"); } }
}

class B extends A {
    void m() { System.out.println("B.m()"); }
}

class C extends A {
    void m() throws RuntimeException, Error { System.out.println("C.m()"); throw new RuntimeException(); }
}

class Main {
    public static void main(String[] args) {
        A x = new A();
        x.call();
        x = new B();
        x.call();
        x = new C();
        x.call();
    }
}

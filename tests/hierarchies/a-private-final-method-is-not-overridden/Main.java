class A {
    private final void m() { System.out.println("A.m()"); }
    void call() { m(); }
}

class B extends A {
    int m() { System.out.println("B.m()"); return 1; }
}

class Main {
    public static void main(String[] args) {
        B x = new B();
        x.call();
        System.out.println(x.m());
    }
}

interface I {
    void m();
}

class A {
    private void m() { System.out.println("A.m()"); }
    void call() { m(); }
}

class B extends A implements I {
    public void m() { System.out.println("B.m()"); }
}

class Main {
    public static void main(String[] args) {
        I x = new B();
        x.m();
        A y = new B();
        y.call();
    }
}

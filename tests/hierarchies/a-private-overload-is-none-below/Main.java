class A {
    private void m(int x) { System.out.println("A.m(int)"); }
    void m(long x) { System.out.println("A.m(long)"); }
    void call() { m(1); }
}

class B extends A {
    void m(char x) { System.out.println("B.m(char)"); }
}

class Main {
    public static void main(String[] args) {
        B b = new B();
        b.call();
        b.m(1);
        b.m('c');
    }
}

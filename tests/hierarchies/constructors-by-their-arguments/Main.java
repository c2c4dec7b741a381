class A {
    A(int x) { System.out.println("A(int)"); }
    A(long x) { System.out.println("A(long)"); }
    A() { System.out.println("A()"); }
}

class B extends A {
    B(int x) { System.out.println("B(int)"); }
    B(long x) { super(x); System.out.println("B(long)"); }
}

class Main {
    public static void main(String[] args) {
        new A(1);
        new A(1L);
        new A();
        new B(1);
        new B(1L);
    }
}

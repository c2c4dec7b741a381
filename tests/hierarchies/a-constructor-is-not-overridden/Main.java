class A {
    A() { System.out.println("A()"); }
    A(int x) { System.out.println("A(int)"); }
}

class B extends A {
    B() { System.out.println("B()"); }
    B(int x) { super(x); System.out.println("B(int)"); }
}

class C extends B { }

class Main {
    public static void main(String[] args) {
        new A();
        new B();
        new B(1);
        new C();
    }
}

class A {
    A m() { System.out.println("A.m()"); return this; }
}

class B extends A {
    B m() { System.out.println("B.m()"); return this; }
}

class Main {
    public static void main(String[] args) {
        A x = new B();
        x.m().m();
        B y = new B();
        y.m().m();
    }
}

interface I {
    void m();
}

class A {
    public void m() { System.out.println("A.m()"); }
}

class B extends A implements I { }

class Main {
    public static void main(String[] args) {
        I x = new B();
        x.m();
        A y = new B();
        y.m();
    }
}

class A {
    public void m() { System.out.println("A.m()"); }
}

class B extends A { }

interface I {
    void m();
}

class C extends B implements I { }

class Main {
    public static void main(String[] args) {
        I x = new C();
        x.m();
        B y = new C();
        y.m();
    }
}

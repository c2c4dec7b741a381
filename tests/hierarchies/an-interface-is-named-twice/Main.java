interface I {
    void m();
}

class A implements I {
    public void m() { System.out.println("A.m()"); }
}

class B extends A implements I { }

class Main {
    public static void main(String[] args) {
        I x = new B();
        x.m();
        x = new A();
        x.m();
    }
}

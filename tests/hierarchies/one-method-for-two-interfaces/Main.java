interface I {
    void m();
}

interface J {
    void m();
}

class A implements I, J {
    public void m() { System.out.println("A.m()"); }
}

class Main {
    public static void main(String[] args) {
        I x = new A();
        x.m();
        J y = new A();
        y.m();
    }
}

interface I {
    void m();
}

interface J extends I {
    void m();
}

class A implements J {
    public void m() { System.out.println("A.m()"); }
}

class Main {
    public static void main(String[] args) {
        I x = new A();
        x.m();
        J y = new A();
        y.m();
    }
}

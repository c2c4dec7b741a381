interface I {
    void m();
}

interface J extends I { }

interface K extends I { }

class A implements J, K {
    public void m() { System.out.println("A.m()"); }
}

class Main {
    public static void main(String[] args) {
        I x = new A();
        x.m();
        J y = new A();
        y.m();
        K z = new A();
        z.m();
    }
}

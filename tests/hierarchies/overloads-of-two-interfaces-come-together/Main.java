interface I {
    void m(int x);
}

interface J {
    void m(long x);
}

interface K {
    void m(char x);
}

interface P extends I, J { }

interface Q extends J, K { }

class A implements P, Q {
    public void m(int x) { System.out.println("A.m(int)"); }
    public void m(long x) { System.out.println("A.m(long)"); }
    public void m(char x) { System.out.println("A.m(char)"); }
}

class Main {
    public static void main(String[] args) {
        P x = new A();
        x.m(1);
        x.m(1L);
        Q y = new A();
        y.m(1L);
        y.m('c');
        y.m(1);
        A z = new A();
        z.m(1);
        z.m('c');
    }
}

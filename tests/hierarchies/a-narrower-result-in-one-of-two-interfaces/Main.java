interface I {
    Object m();
}

interface J {
    String m();
}

interface K extends I, J { }

interface L extends J, I { }

class A implements K, L {
    public String m() { System.out.println("A.m()"); return "s"; }
}

class Main {
    public static void main(String[] args) {
        K x = new A();
        System.out.println(x.m());
        L y = new A();
        System.out.println(y.m());
        I z = new A();
        System.out.println(z.m());
    }
}

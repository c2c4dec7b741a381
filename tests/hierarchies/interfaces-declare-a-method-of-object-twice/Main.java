interface I {
    boolean equals(Object o);
}

interface J extends I {
    boolean equals(Object o);
}

interface K {
    int hashCode();
}

interface L extends J, K { }

class A implements L {
    public boolean equals(Object o) { System.out.println("A.equals(Object)"); return o == null; }
}

class Main {
    public static void main(String[] args) {
        J x = new A();
        System.out.println(x.equals(null));
        I y = x;
        System.out.println(y.equals(x));
        L z = new A();
        System.out.println(z.hashCode() == z.hashCode());
    }
}

interface I {
    boolean equals(Object o);
    int hashCode();
}

class A implements I { }

class B implements I {
    public boolean equals(Object o) { System.out.println("B.equals(Object)"); return true; }
    public int hashCode() { System.out.println("B.hashCode()"); return 7; }
}

class Main {
    public static void main(String[] args) {
        I x = new A();
        System.out.println(x.equals(x));
        System.out.println(x.equals(new A()));
        System.out.println(x.hashCode() == x.hashCode());
        x = new B();
        System.out.println(x.equals(null));
        System.out.println(x.hashCode());
        Object o = x;
        System.out.println(o.hashCode());
    }
}

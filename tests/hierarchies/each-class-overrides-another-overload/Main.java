class A {
    void m(B x) { System.out.println("A.m(B)"); }
    void m(C x) { System.out.println("A.m(C)"); }
    void m(D x) { System.out.println("A.m(D)"); }
}

class B extends A {
    void m(B x) { System.out.println("B.m(B)"); }
}

class C extends A {
    void m(C x) { System.out.println("C.m(C)"); }
}

class D extends A {
    void m(D x) { System.out.println("D.m(D)"); }
}

class Main {
    public static void main(String[] args) {
        A[] all = { new A(), new B(), new C(), new D() };
        for (int i = 0; i < all.length; i++) {
            all[i].m(new B());
            all[i].m(new C());
            all[i].m(new D());
        }
    }
}

interface I {
    String x = "I.x";
}

class A implements I {
    static String y = "A.y";
    void x() { System.out.println("A.x()"); }
}

class B extends A implements I { }

class Main {
    public static void main(String[] args) {
        System.out.println(B.x);
        System.out.println(B.y);
        new B().x();
    }
}

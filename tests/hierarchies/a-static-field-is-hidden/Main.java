class A {
    static String x = "A.x";
}

class B extends A {
    static String x = "B.x";
}

class C extends B { }

class Main {
    public static void main(String[] args) {
        System.out.println(A.x);
        System.out.println(B.x);
        System.out.println(C.x);
    }
}

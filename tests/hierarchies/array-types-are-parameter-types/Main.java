class A {
    void m(int[] x) { System.out.println("A.m(int[])"); }
}

class B extends A {
    void m(int[] y) { System.out.println("B.m(int[])"); }
    void m(long[] y) { System.out.println("B.m(long[])"); }
}

class Main {
    public static void main(String[] args) {
        A x = new B();
        x.m(new int[0]);
        B y = new B();
        y.m(new long[0]);
        y.m(new int[0]);
    }
}

class A {
    private String x = "A.x";
    String get() { System.out.println("A.get()"); return x; }
}

class B extends A {
    String x = "B.x";
}

class Main {
    public static void main(String[] args) {
        B b = new B();
        System.out.println(b.x);
        System.out.println(b.get());
    }
}

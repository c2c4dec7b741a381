class A {
    String x = "A.x";
    String get() { System.out.println("A.get()"); return x; }
}

class B extends A {
    String x = "B.x";
}

class C extends B {
    String get() { System.out.println("C.get()"); return x + " " + super.x + " " + super.get(); }
}

class Main {
    public static void main(String[] args) {
        A a = new B();
        System.out.println(a.get());
        a = new C();
        System.out.println(a.get());
    }
}

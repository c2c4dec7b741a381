class A {
    String x = "A.x";
    String y = "A.y";
}

class B extends A {
    String x = "B.x";
}

class C extends B { }

class Main {
    public static void main(String[] args) {
        A a = new C();
        B b = new C();
        C c = new C();
        System.out.println(a.x + " " + b.x + " " + c.x);
        System.out.println(a.y + " " + b.y + " " + c.y);
        System.out.println(((A) c).x);
    }
}

interface I {
    String x = "I.x";
}

interface J {
    String x = "J.x";
}

class A implements I, J {
    String x = "A.x";
}

class B extends A { }

class Main {
    public static void main(String[] args) {
        System.out.println(new A().x);
        System.out.println(new B().x);
        System.out.println(I.x + " " + J.x);
        I i = new A();
        System.out.println(i.x);
    }
}

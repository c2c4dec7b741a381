interface I {
    String x = "I.x";
}

interface J extends I { }

interface K extends I { }

class A implements J, K { }

class Main {
    public static void main(String[] args) {
        System.out.println(A.x);
        System.out.println(J.x);
        System.out.println(new A().x);
    }
}

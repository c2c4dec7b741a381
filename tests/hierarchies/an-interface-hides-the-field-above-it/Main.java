interface I {
    String x = "I.x";
}

interface J extends I {
    String x = "J.x";
}

class A implements J { }

class Main {
    public static void main(String[] args) {
        System.out.println(I.x);
        System.out.println(J.x);
        System.out.println(A.x);
    }
}

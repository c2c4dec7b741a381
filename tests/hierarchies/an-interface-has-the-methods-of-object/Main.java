interface I { }

interface J extends I { }

class A implements J {
    public String toString() { System.out.println("A.toString()"); return "an A"; }
}

class Main {
    public static void main(String[] args) {
        I x = new A();
        System.out.println(x.toString());
        J y = new A();
        System.out.println(y.equals(y));
        System.out.println(y.equals(x));
    }
}

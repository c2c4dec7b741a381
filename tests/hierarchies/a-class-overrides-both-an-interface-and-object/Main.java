interface I {
    String toString();
}

class A implements I {
    public String toString() { System.out.println("A.toString()"); return "an A"; }
}

class Main {
    public static void main(String[] args) {
        I x = new A();
        System.out.println(x.toString());
        Object o = x;
        System.out.println(o.toString());
        System.out.println("" + o);
    }
}

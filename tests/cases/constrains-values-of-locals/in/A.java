class A { void m() { System.out.println("a"); } }
class B extends A { }
class Main { public static void main(String[] args) {
    B x = new B();
    B y = x;
    y = x;
    x = y;
    x.m();
} }

import l.*;

class A extends Base {
    public void m() { System.out.println("A.m()"); }
}

class B extends A {
    public void m() { System.out.println("B.m()"); }
}

class Main {
    public static void main(String[] args) {
        new A().call();
        Base x = new B();
        x.call();
        x = new Base();
        x.call();
    }
}

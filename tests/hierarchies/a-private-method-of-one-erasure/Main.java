import l.*;

class Main {
    public static void main(String[] args) {
        B b = new B();
        b.call(null);
        b.m(null);
    }
}

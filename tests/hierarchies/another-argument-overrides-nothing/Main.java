import l.*;

class Main {
    public static void main(String[] args) {
        A<String> x = new B();
        x.m("s");
        new B().m(new Exception());
        new B().m("s");
    }
}

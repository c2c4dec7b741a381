import l.*;

class Main {
    public static void main(String[] args) {
        A<String> x = new B();
        x.m("s");
        x = new A<String>();
        x.m("s");
        new B().m("s");
    }
}

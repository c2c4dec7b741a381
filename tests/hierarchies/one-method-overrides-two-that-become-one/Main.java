import l.*;

class Main {
    public static void main(String[] args) {
        A<String> a = new B();
        new Caller<String>().call(a, "s");
        new Caller<String>().call(new A<String>(), "s");
        A<Exception> b = new A<Exception>();
        b.m("s");
        b.m(new Exception());
        new B().m("s");
    }
}

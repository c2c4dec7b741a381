import l.*;

class Main {
    public static void main(String[] args) {
        I<String> x = new C();
        x.m("s");
        K y = new C();
        y.m("s");
        A z = new B();
        z.m("s");
    }
}

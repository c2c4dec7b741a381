import l.*;

class Main {
    public static void main(String[] args) {
        K<String> x = new D();
        x.m("s");
        J y = new D();
        y.m("s");
        x = new G();
        x.m("s");
        C z = new F();
        z.m("s");
    }
}

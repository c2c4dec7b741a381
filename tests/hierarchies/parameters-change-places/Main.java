import l.*;

class Main {
    public static void main(String[] args) {
        I<String, Exception> x = new C();
        x.m("s", null);
        J<Exception, String> y = new C();
        y.m("s", null);
    }
}

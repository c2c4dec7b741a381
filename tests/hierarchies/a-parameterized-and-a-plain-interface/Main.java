import l.*;

class Main {
    public static void main(String[] args) {
        I<String> x = new A();
        x.m("s");
        J y = new A();
        y.m("s");
    }
}

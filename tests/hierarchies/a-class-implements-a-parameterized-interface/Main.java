import l.*;

class Main {
    public static void main(String[] args) {
        I<String> x = new A();
        x.m("s");
        x = new C();
        x.m("s");
    }
}

import l.*;

class Main {
    public static void main(String[] args) {
        C b = new C();
        b.m("s");
        I i = b;
        i.m("s");
        A<String> a = b;
        a.m("s");
    }
}

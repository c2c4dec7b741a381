import l.*;

class Main {
    public static void main(String[] args) {
        A<String> x = new C();
        System.out.println(x.m("s"));
        x = new B<String>();
        System.out.println(x.m("t"));
    }
}

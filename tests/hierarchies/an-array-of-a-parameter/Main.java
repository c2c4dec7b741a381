import l.*;

class Main {
    public static void main(String[] args) {
        A<String> x = new B();
        x.m(new String[1]);
        x = new A<String>();
        x.m(new String[1]);
    }
}

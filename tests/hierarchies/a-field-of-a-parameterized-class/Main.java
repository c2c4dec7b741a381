import l.*;

class Main {
    public static void main(String[] args) {
        B b = new B();
        b.x = "b";
        C<String> c = new C<String>();
        c.x = "c";
        A<String> a = c;
        a.x = "a";
        System.out.println(b.x + " " + c.x + " " + a.x);
        a = b;
        System.out.println(a.x);
    }
}

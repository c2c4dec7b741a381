import l.*;

class Main {
    public static void main(String[] args) {
        A<String> x = new B();
        System.out.println(x.m());
    }
}

class A {
    void m(int x) { System.out.println("A.m(int)"); }
    void m(long x) { System.out.println("A.m(long)"); }
    void m() { System.out.println("A.m()"); }
    void m(Object x) { System.out.println("A.m(Object)"); }
    void m(String x) { System.out.println("A.m(String)"); }
    void m(char x) { System.out.println("A.m(char)"); }
    void m(boolean x) { System.out.println("A.m(boolean)"); }
}

class Main {
    public static void main(String[] args) {
        A a = new A();
        a.m();
        a.m(1);
        a.m(1L);
        a.m('c');
        a.m(true);
        a.m("s");
        a.m(a);
        a.m(null);
    }
}

import l.*;

class A {
    void m(List<A> x) { System.out.println("A.m(List<A>)"); }
}

class Main {
    public static void main(String[] args) {
        List<A> x = new Node<A>();
        x.put(new A());
        x.put(null);
        x.get().m(x);
    }
}

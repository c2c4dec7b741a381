interface X { }

interface Y { }

class R implements X, Y { }

interface I {
    X m();
}

interface J {
    Y m();
}

abstract class S {
    public abstract R m();
}

abstract class C extends S implements I, J { }

class E extends C {
    public R m() { System.out.println("E.m()"); return null; }
}

class Main {
    public static void main(String[] args) {
        I x = new E();
        x.m();
        J y = new E();
        y.m();
        S z = new E();
        z.m();
    }
}

interface X { }

interface Y { }

class R implements X, Y { }

interface I {
    X m();
}

interface J {
    Y m();
}

class S {
    public R m() { System.out.println("S.m()"); return new R(); }
}

class C extends S implements I { }

class E extends C implements J { }

class Main {
    public static void main(String[] args) {
        I x = new E();
        x.m();
        J y = new E();
        y.m();
        x = new C();
        x.m();
    }
}

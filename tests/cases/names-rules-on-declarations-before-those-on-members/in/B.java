class A { public final int f() { return 1; } }
class B extends A { void f() { } void f() { } }

class A extends A { void m() { } void m() { } }
class String { }

class A { String toString() { return null; } }
class B { int a; int a; }

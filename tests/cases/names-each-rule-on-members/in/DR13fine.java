class A { Object m() { return null; } }
class B extends A { B[] m() { return null; } }

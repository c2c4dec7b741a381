class E extends Exception { }
class A { void m() throws Exception { } }
class B extends A { void m() throws E, Error { } }

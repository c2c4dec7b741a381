class B extends A { }
interface J { void m(); }

interface I { void m(); }
abstract class A implements I { }
  class B extends A { }

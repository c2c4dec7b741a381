class C extends B {
  void m(String a) { }
}
class B extends A { }
class A { final void m(String a) { } }

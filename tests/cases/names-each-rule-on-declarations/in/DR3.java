class A { }
class B extends C { }
class C extends B { }
class D extends B { }

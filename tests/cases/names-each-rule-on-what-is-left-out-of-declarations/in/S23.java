class A { }
class B { }
interface A { }

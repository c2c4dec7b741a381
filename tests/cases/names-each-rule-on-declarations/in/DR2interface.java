class A { }
interface B extends A { }

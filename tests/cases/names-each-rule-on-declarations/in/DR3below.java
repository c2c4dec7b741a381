class D extends B { }
interface B extends C { }
interface C extends B { }

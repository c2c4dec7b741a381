interface X { }
interface Y { }
class R implements X, Y { }
interface I { X m(); }
interface J { Y m(); }
class S { public R m() { return null; } }
class C extends S implements I { }
class E extends C implements J { }

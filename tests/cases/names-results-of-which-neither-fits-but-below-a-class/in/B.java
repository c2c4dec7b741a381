interface X { }
interface Y { }
class R implements X, Y { }
interface I { X m(); }
interface J { Y m(); }
interface L { R m(); }
interface K extends I, J, L { }

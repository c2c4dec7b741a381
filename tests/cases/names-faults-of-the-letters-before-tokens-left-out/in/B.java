enum A { }
class B { int a = 0x; }

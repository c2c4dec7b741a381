import l.Below;
class A extends Below { }

package l;
class A { }

package String.x;
class A { }

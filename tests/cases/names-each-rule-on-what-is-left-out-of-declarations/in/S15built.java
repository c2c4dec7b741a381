package java.io;
class A { }

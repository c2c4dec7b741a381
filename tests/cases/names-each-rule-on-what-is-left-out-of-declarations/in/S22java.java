class A { }
class java { }

}
class A { volatile int a; }

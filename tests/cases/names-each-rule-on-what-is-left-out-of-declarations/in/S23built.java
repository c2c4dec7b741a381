class A { }
class PrintStream { }


class B { }

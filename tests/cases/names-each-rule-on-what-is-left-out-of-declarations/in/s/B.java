package s;
class B { }


// the other package
  package q;
class B { }

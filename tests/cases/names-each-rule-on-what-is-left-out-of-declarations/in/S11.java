import l.*;
class A { }
  class B extends Box<String> { }

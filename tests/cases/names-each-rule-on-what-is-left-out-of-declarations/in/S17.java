import l.*;
class A {
  Box<A>[] a;
}

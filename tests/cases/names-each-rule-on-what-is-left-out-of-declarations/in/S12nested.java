import l.*;
class A {
  Box<Box<A>> a;
}

import l.*;
class A {
  Box<String[]> a;
}

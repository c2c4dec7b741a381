import l.*;
class A {
  Hidden m() { return null; }
}

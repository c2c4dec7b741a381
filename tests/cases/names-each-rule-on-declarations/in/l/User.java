package l;
class L {
  A a;
}

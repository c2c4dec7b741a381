package l;
class Stuck<T> {
  T m(T x) {
    return x;
    ;
  }
}

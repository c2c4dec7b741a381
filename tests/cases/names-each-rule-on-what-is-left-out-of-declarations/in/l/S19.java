package l;
interface A {
  void finalize();
}

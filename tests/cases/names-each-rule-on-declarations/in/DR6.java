class A {
  void m(int a) { }
  int m(long a) { return 1; }
  int m(int b) { return 1; }
}

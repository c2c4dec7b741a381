class A {
  void m() throws Exception, A { }
}

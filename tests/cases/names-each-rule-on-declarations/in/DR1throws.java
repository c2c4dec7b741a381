class A {
  void m() throws Exception, Missing { }
}

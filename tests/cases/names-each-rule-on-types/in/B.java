class B {
  int m() {
    return "b";
  }
}

class Late {
  int m() {
  }
}

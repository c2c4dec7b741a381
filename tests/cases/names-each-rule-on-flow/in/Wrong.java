class Wrong {
  int m() {
    return "a";
  }
}

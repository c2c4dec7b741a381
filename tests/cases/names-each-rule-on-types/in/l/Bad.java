package l;
class Bad {
  int m() {
    return hidden;
  }
}

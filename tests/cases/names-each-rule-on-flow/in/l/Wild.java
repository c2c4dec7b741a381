package l;
class Wild {
  int m() {
    return hidden;
  }
}

class Calls {
  int v;
  Calls(int v) { System.out.print("c" + v); this.v = v; }
  void m() { System.out.print("m"); }
  static int s(int i) { System.out.print("s"); return i; }
  public String toString() { return "t"; }
  public static void main(String[] x) {
    System.out.print("a ");
    Calls c = new Calls(s(1));
    System.out.print(" ");
    c.m();
    System.out.print(c);
    System.out.print("text".length());
  }
}

class Chained {
  public static void main(String[] x) {
    System.out.println(new C3());
    System.out.println(new C3(7));
    System.out.println(new C3("t", 1).name());
  }
}
class C1 {
  String log = "f1 ";
  C1() { this("d"); log += "C1() "; }
  C1(String s) { log += "C1(" + s + ") " + name() + " "; }
  String name() { return "c1"; }
  int put(String s) { log += s; return n1++; }
  private int n1 = 3;
  public String toString() { return log; }
}
class C2 extends C1 {
  int n = 4;
  int i2 = put("i2 ");
  C2() { log += "C2() "; }
  C2(int k) { super("k" + k); log += "C2(" + k + n + ") "; }
  String name() { return "c2:" + n; }
}
class C3 extends C2 {
  int z = 9;
  String t = "t";
  int i3 = put("i3 ") + (n = 5);
  C3() { log += "C3() "; }
  C3(int k) { super(k + 1); log += "C3(" + k + ") "; }
  C3(String s, int k) { this(k); log += s; }
  String name() { return "c3:" + n + z + t; }
}

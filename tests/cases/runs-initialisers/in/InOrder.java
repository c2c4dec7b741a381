class InOrder {
  static int s(String t) { System.out.print(t + " "); return t.length(); }
  static int a = s("a");
  int f = s("f") + a;
  static int b = s("bb") + a;
  int g = s("g") + f + b;
  InOrder() { s("ctor"); s("" + g); }
  InOrder(int k) { this(); s("k" + k); }
  static int late = 5;
  public static void main(String[] x) {
    s("main");
    new InOrder();
    new InOrder(1);
    System.out.println(late);
    Sub.touch();
    new Sub();
    System.out.println();
  }
}
class Base { static int v = InOrder.s("Base"); int w = InOrder.s("base"); Base() { InOrder.s("Base()"); on(); } void on() { } }
class Sub extends Base {
  static int v = InOrder.s("Sub");
  int w = InOrder.s("sub");
  int u = 7;
  Sub() { InOrder.s("Sub()"); on(); }
  static void touch() { InOrder.s("touch"); }
  void on() { InOrder.s("on" + u + w); }
}

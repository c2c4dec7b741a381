class Ordered {
  static String log = "";
  static int t(String s) { log += s + " "; return log.length(); }
  public static void main(String[] x) {
    Down.hello();
    System.out.println(log);
    log = "";
    new Down();
    System.out.println(log);
    log = "";
    Up u = new Up(t("arg"));
    System.out.println(log + u.a);
    log = "";
    Late l = null;
    try { l.f = t("right"); } catch (NullPointerException e) { t("null"); }
    System.out.println(log);
    log = "";
    Late.set(t("arg"));
    System.out.println(log);
    log = "";
    Later.v = t("value");
    System.out.println(log);
    log = "";
    Latest.v += t("value");
    System.out.println(log);
    log = "";
    new New(t("arg"));
    System.out.println(log);
  }
}
class Up { static int s = Ordered.t("Up"); int a = Ordered.t("up.a"); Up() { Ordered.t("Up()"); } Up(int n) { this(); Ordered.t("Up(n)"); } static void hello() { Ordered.t("hello"); } }
class Down extends Up { static int s = Ordered.t("Down"); int b = Ordered.t("down.b"); Down() { super(Ordered.t("super")); Ordered.t("Down()"); } }
class Late { static int s = Ordered.t("Late"); int f; static void set(int n) { Ordered.t("set"); } }
class Later { static int v = Ordered.t("Later"); }
class Latest { static int v = Ordered.t("Latest"); }
class New { static int v = Ordered.t("New"); New(int n) { Ordered.t("New()"); } }

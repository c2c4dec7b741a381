class Hidden {
  public static void main(String[] x) {
    Low l = new Low();
    High h = l;
    System.out.println(h.f + l.f + ((High) l).f + l.up() + l.both());
    h.f = "x";
    l.f = "y";
    System.out.println(h.f + l.f + h.get() + l.get());
    System.out.println(h.s + l.s + High.s + Low.s);
    Low.s = 7;
    High.s++;
    System.out.println(h.s + " " + l.s);
    System.out.println(h.st() + l.st() + High.st() + Low.st() + l.callSt());
    System.out.println(l.n + h.n);
    High none = null;
    System.out.println(none.s + none.st());
  }
}
class High {
  String f = "high";
  static int s = 1;
  int n = 10;
  String get() { return f; }
  static String st() { return "hst "; }
  String callSt() { return st(); }
}
class Low extends High {
  String f = "low";
  static int s = 2;
  String up() { return super.f; }
  String both() { return f + super.f + this.f + ((High) this).f; }
  static String st() { return "lst "; }
}

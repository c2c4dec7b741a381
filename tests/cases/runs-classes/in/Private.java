class Private {
  private String p() { return "base"; }
  private int f = 1;
  String call() { return p() + f; }
  static String of(Private p) { return p.p() + p.f; }
  public static void main(String[] x) {
    Below b = new Below();
    System.out.println(b.call() + of(b) + b.p() + b.f + b.own());
    System.out.println(((Private) b).p());
    Private p = new Private();
    p.f += 5;
    System.out.println(p.f + p.call());
  }
}
class Below extends Private {
  int f = 2;
  String p() { return "below"; }
  String own() { return p() + f + call(); }
}

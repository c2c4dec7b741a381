class Linked {
  private Object first;
  private Linked rest;
  private static int made;
  static final Linked END = new Linked(null, null);
  private Linked(Object first, Linked rest) { this.first = first; this.rest = rest; made++; }
  static Linked of(Object[] a) { Linked l = END; for (int i = a.length; i-- > 0; ) l = new Linked(a[i], l); return l; }
  Linked reversed() { Linked r = END; for (Linked l = this; l != END; l = l.rest) r = new Linked(l.first, r); return r; }
  int length() { return this == END ? 0 : 1 + rest.length(); }
  public String toString() { return this == END ? "" : first + (rest == END ? "" : "," + rest); }
  public boolean equals(Object o) {
    if (this == o) return true;
    if (!(o instanceof Linked)) return false;
    Linked l = (Linked) o;
    return l != END && this != END && (first == null ? l.first == null : first.equals(l.first)) && rest.equals(l.rest);
  }
  public static void main(String[] x) {
    Object[] a = { "a", null, new String[0].length + "", "d" };
    Linked l = of(a);
    System.out.println(l + " " + l.reversed() + " " + l.length() + " " + made);
    System.out.println(l.equals(of(a)) + " " + l.equals(l.reversed()) + " " + l.reversed().reversed().equals(l) + " " + END.equals(l) + l.equals("a"));
    System.out.println(END.rest.first);
  }
}

class Dispatched {
  static String over(Object o) { return "O"; }
  static String over(Shape s) { return "S"; }
  static String over(Square s) { return "Q"; }
  static String two(Object o, Square s) { return "oq"; }
  static String two(Shape o, Object s) { return "so"; }
  public static void main(String[] x) {
    Shape[] all = { new Square(3), new Rect(2, 5), new Named("n", new Square(1)) };
    for (Shape s : all) {
      System.out.println(s.area() + " " + s + " " + (s instanceof Rect) + " " + over(s));
      if (s instanceof Label) System.out.println(((Label) s).label());
    }
    Square q = new Square(2);
    Object o = q;
    System.out.println(over(q) + over(o) + over((Shape) q) + two(o, q) + two(q, o));
    Label l = new Named("m", q);
    System.out.println(l.label() + l.toString() + l.equals(l) + l.SIGN);
    System.out.println(Label.SIGN + Named.SIGN);
    Shape none = null;
    System.out.println(none instanceof Shape);
    o = (Label) (Object) l;
    try { o = (Label) (Object) q; } catch (ClassCastException e) { System.out.println("cast"); }
  }
}
interface Shape { int area(); }
interface Label { String SIGN = "#"; String label(); }
class Rect implements Shape {
  private int w, h;
  Rect(int w, int h) { this.w = w; this.h = h; }
  public int area() { return w * h; }
  public String toString() { return name() + w + "x" + h; }
  String name() { return "rect"; }
}
class Square extends Rect {
  Square(int a) { super(a, a); }
  String name() { return "square of " + super.name(); }
}
class Named implements Shape, Label {
  private final String name;
  private final Shape shape;
  Named(String name, Shape shape) { this.name = name; this.shape = shape; }
  public int area() { return shape.area(); }
  public String label() { return SIGN + name; }
  public String toString() { return name + ":" + shape; }
}

// Shapes on a board, the largest first.
interface Shape {
  int SIDES = 4;
  int area();
  String name();
}
abstract class Named implements Shape {
  private final String name;
  protected static int made = 0;
  private static final String[] KINDS = {"none", "one", "many",};
  Named(String name) {
    super();
    this.name = name;
    made++;
  }
  Named() { this("nameless"); }
  public String name() { return name; }
  public String toString() { return name() + " of " + area() + " (" + kind(made) + ')'; }
  static String kind(int n) { return n <= 0 ? KINDS[0] : n == 1 ? KINDS[1] : KINDS[KINDS.length - 1]; }
}
class Rect extends Named {
  final int width, height;
  Rect(String name, int width, int height) {
    super(name);
    this.width = width;
    this.height = height;
  }
  Rect(int side) { this("square", side, side); }
  public int area() { return width * height; }
}
final class Dot extends Named {
  private static final Dot ONE = new Dot();
  private Dot() { }
  static Dot one() { return ONE; }
  public int area() { return 0; }
  public boolean equals(Object o) { return o instanceof Dot; }
  public int hashCode() { return 17; }
}
class Hole extends Rect {
  private Shape around;
  Hole(Shape around) {
    super(1);
    this.around = around;
  }
  Hole() { this(null); }
  public int area() { return around == null ? -super.area() : around.area() - super.area(); }
  public String name() { return "hole in " + (around == null ? null : around.name()); }
}
class Board {
  private Shape[] shapes = new Shape[2];
  private int count;
  static final long LIMIT = 0x7fffffffL * 2, START = -1;
  static int[][] grid = {{1, 2}, {}, {3}}, marks[] = new int[2][][];
  static Board last;
  void add(Shape s) {
    if (count == shapes.length) {
      Shape[] more = new Shape[count << 1];
      for (int i = 0; i < count; i++) more[i] = shapes[i];
      shapes = more;
    }
    shapes[count++] = s;
    last = this;
  }
  void sort() {
    boolean again;
    do {
      again = false;
      for (int i = 1; i < count; i++) {
        if (shapes[i - 1].area() >= shapes[i].area()) continue;
        Shape s = shapes[i];
        shapes[i] = shapes[i - 1];
        shapes[i - 1] = s;
        again = true;
      }
    } while (again);
  }
  long sum() {
    long all = START + 1;
    for (Shape s : shapes) {
      if (s == null) break;
      all += s.area();
    }
    for (int[] row : grid) for (int n : row) all -= n;
    return all > LIMIT ? LIMIT : all;
  }
  String describe(int what) {
    String text = "";
    switch (what) {
      case 0:
      case 1:
        text += count;
        break;
      case -1:
        return null;
      case 'a':
        text = "all " + sum();
      default:
        Shape first = shapes[0];
        if (first instanceof Rect && !(first instanceof Hole)) {
          Rect r = (Rect) first;
          text += r.width + "x" + r.height;
        } else text += first;
    }
    return text;
  }
  public static void main(String[] args) {
    Board b = new Board();
    b.add(Dot.one());
    b.add(new Rect(3));
    b.add(new Rect("bar", 2, Shape.SIDES));
    b.add(new Hole(new Rect(5)));
    b.add(new Hole());
    b.sort();
    for (int what = -1; what < 3; ++what) System.out.println(b.describe(what));
    System.out.println(b.describe('a') + Named.kind(0) + b.shapes[1].SIDES);
    Object[] all = b.shapes;
    System.out.println(all[0] == b.shapes[0] ? all[0].toString() : "" + all.length);
    System.out.print(Board.last == b && Board.grid[2][0] == 3 | args.length > 0);
    System.out.println();
  }
}

import java.util.ArrayList;
import java.util.HashMap;
import java.util.List;
import java.util.Map;
class Maps {
  public static void main(String[] x) {
    Map<Point, String> m = new HashMap<Point, String>();
    System.out.println(m.put(new Point(1, 2), "first"));
    System.out.println(m.put(new Point(1, 2), "second"));
    m.put(null, "none");
    System.out.println(m.size() + m.get(new Point(1, 2)) + m.get(new Point(2, 1)) + m.get(null) + m.containsKey(new Point(1, 2)));
    List<Point> l = new ArrayList<Point>();
    l.add(new Point(3, 4));
    l.add(new Twice(5));
    System.out.println(l.indexOf(new Point(5, 5)) + " " + l.contains(new Point(4, 3)) + l);
    System.out.println(new Point(1, 2).equals(new Twice(1)) + " " + new Point(1, 1).equals("p") + new Point(7, 9).hashCode());
    Map<String, Count> deep = new HashMap<String, Count>();
    String[] words = { "be", "or", "be" };
    for (String w : words) {
      Count in = deep.get(w);
      if (in == null) { in = new Count(); deep.put(w, in); }
      in.add("n");
    }
    System.out.println(deep.get("be").of("n") + " " + deep.get("or").of("n") + " " + deep.get("to"));
    System.out.println(deep.get("be").of("m"));
  }
}
class Count {
  private Map<String, Integer> counts = new HashMap<String, Integer>();
  int of(String s) { return counts.get(s).intValue(); }
  void add(String s) { counts.put(s, new Integer(counts.containsKey(s) ? of(s) + 1 : 1)); }
}
class Point {
  final int x, y;
  Point(int x, int y) { this.x = x; this.y = y; }
  public int hashCode() { return 31 * x + y; }
  public boolean equals(Object o) { return o instanceof Point && ((Point) o).x == x && ((Point) o).y == y; }
  public String toString() { return x + "," + y; }
}
class Twice extends Point { Twice(int n) { super(n, n); } public String toString() { return "2*" + super.toString(); } }

import java.util.*;
class C { public int on(C other) { return 1; } public int off() { return 2; } }
class M {
  static List<C> all = new ArrayList<C>();
  static Map<String, C> named = new HashMap<String, C>();
  static int sum(List<C> some) { int n = 0; for (C c : some) n += c.on(c); return n; }
  static int sub(List<C> others) { int n = 0; for (C c : others) n += c.off(); return n; }
  public static void main(String[] args) {
    all.add(new C());
    named.put("a", all.get(0));
    List<C> mine = new ArrayList<C>();
    mine.add(new C());
    System.out.println(sum(all) + sub(mine) + named.get("a").on(null));
  }
}

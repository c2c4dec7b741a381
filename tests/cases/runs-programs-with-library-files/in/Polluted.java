import java.util.ArrayList;
import java.util.List;
class Polluted {
  static void into(List raw, Object o) { raw.add(o); }
  static Object first(List<String> l) { return l.get(0); }
  public static void main(String[] x) {
    List<String> l = new ArrayList<String>();
    List raw = l;
    raw.add(new Integer(4));
    into(l, "s");
    System.out.println(l);
    System.out.println(l.get(1));
    Object o = l.get(1);
    try { String s = l.get(0); System.out.println("never"); } catch (ClassCastException e) { System.out.println("cast"); }
    try { l.get(0).length(); } catch (ClassCastException e) { System.out.println("cast"); }
    try { for (String s : l) System.out.println("never"); } catch (ClassCastException e) { System.out.println("cast"); }
    System.out.println(raw.get(0));
    String s = l.get(0);
  }
}

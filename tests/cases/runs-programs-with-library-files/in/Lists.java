import java.util.ArrayList;
import java.util.Iterator;
import java.util.List;
import java.util.NoSuchElementException;
class Lists {
  public static void main(String[] x) {
    List<String> l = new ArrayList<String>();
    l.add("a");
    l.add("b");
    l.add(null);
    l.add("a");
    System.out.println(l + " " + l.size() + l.isEmpty());
    for (String s : l) { if (s == null) continue; System.out.print(s + s.length()); }
    System.out.println();
    System.out.println(l.indexOf(null) + " " + l.contains("b") + l.contains("z") + l.remove("a") + l.remove("z"));
    System.out.println(l.set(0, "c") + l.get(0) + l.remove(1) + l);
    try { l.get(2); } catch (IndexOutOfBoundsException e) { System.out.println("index"); }
    Iterator<String> i = l.iterator();
    while (i.hasNext()) { String s = i.next(); if (s.equals("c")) i.remove(); }
    System.out.println(l);
    try { i.next(); } catch (NoSuchElementException e) { System.out.println("end"); }
    l.clear();
    for (String s : l) System.out.println("never");
    try { l.iterator().remove(); } catch (IllegalStateException e) { System.out.println("state"); }
    List<Object> ll = new ArrayList<Object>();
    ll.add(l);
    l.add("in");
    System.out.println(ll + "" + ((List) ll.get(0)).get(0) + (ll.get(0) == l));
    List<String> none = null;
    for (String s : none) System.out.println("never");
  }
}

import java.util.*;
class Item implements Priced {
  String name;
  int price;
  Item(String name, int price) { this.name = name; this.price = price; }
  public int price() { return price; }
}
interface Priced { int price(); }
class Old {
  List items = new ArrayList();
  static List<String> names = new ArrayList();
  Map prices = new HashMap();
  List<Item> typed;
  Old(List<Item> typed) { this.typed = typed; }
  Old() { this(new ArrayList()); }
  void add(Item i) {
    items.add(i);
    prices.put(i.name, i);
    typed.add(i);
    ((Collection) typed).add(i);
  }
  List<Item> all() {
    if (items.size() == typed.size()) return typed;
    return items;
  }
  Iterator<Item> each() { return items.iterator(); }
  static int sum(List<Item> of) {
    int all = 0;
    for (Item i : of) all += i.price();
    return all;
  }
  static List<Item> same(List<Item> of) { return of; }
  static Object first(List of) { return of.isEmpty() ? null : of.get(0); }
  int twice() {
    List<Item> kept = same(items);
    List raw = kept;
    Item i = (Item) prices.get("a");
    kept = raw;
    kept = raw == null ? kept : null;
    Object o = raw;
    kept = (List<Item>) o;
    kept = (List<Item>) (Collection<Item>) kept;
    ArrayList<Item> list = (ArrayList<Item>) kept;
    String text = "" + raw.set(0, i) + raw.contains(i) + raw.remove(i) + raw.indexOf(o);
    for (Object x : raw) text += ((Item) x).name + sum(raw);
    for (Item x : (List<Item>) o) text += x.name;
    return sum(list) + sum((List<Item>) raw) + sum(null) + text.length();
  }
  public static void main(String[] args) {
    Old o = new Old();
    o.add(new Item("a", 1));
    names.add("b");
    List[] rows = {names, o.items};
    for (List<String> row : rows) System.out.println(row);
    List<String> one = rows[0];
    System.out.println(first(one) + "" + first(names) + o.twice() + sum(o.all()));
    Iterator<Item> it = o.each();
    while (it.hasNext()) System.out.println(it.next().name);
  }
}

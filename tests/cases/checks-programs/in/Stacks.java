import l.*;
class Stacks {
  private Stack<String> words = new Stack<String>();
  private Bag<String> bag = words;
  Stack raw = words;
  String last(String or) {
    String word = words.pop();
    words.push(or);
    return word == null ? bag.any(or) : word;
  }
  int count() {
    int n = 0;
    Stack<String> s = words.over().over();
    while (!s.isEmpty()) {
      n += s.pop().length();
      if (n > 100) break;
    }
    return n + Stack.made;
  }
  Pair<String, Stacks> pair() {
    Pair<Stacks, String> p = new Pair<Stacks, String>(this, last("x"));
    p.first.words.push(p.second);
    p.second += p.turned().first();
    return p.turned();
  }
  static void fill(Pair p, Object with) {
    p.first = with;
    p.second = p.first;
    p = new Pair(with, null);
  }
  Pair<String, String> loose(Pair p) {
    Pair<String, String> q = p.turned();
    q.first = "a";
    if (q == p) return p;
    return (Pair<String, String>) (Object) q;
  }
  public static void main(String[] args) {
    Stacks s = new Stacks();
    for (String a : args) s.words.push(a);
    Stack<Object> all = Stack.of(args);
    all.push(s.pair());
    System.out.println(all.pop().toString() + s.count());
    s.raw.push(s);
    Bag b = s.raw;
    System.out.println(b.any("none"));
    Bag<Stacks> c = b;
    Stack<Stacks> d = (Stack<Stacks>) c;
    fill(s.pair(), d);
    System.out.println(s.loose(s.pair()).first == null | d.equals(s.words));
  }
}

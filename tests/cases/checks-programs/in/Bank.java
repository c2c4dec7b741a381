import java.util.ArrayList;
import java.util.HashMap;
import java.util.Iterator;
import java.util.List;
import java.util.Map;
class Refused extends Exception {
  private final long missing;
  Refused(String why, long missing) {
    super(why);
    this.missing = missing;
  }
  long missing() { return missing; }
}
class Closed extends RuntimeException { }
class Account {
  private static int next = 1;
  final int number = next++;
  private long cents;
  private List<String> log = new ArrayList<String>();
  private boolean open = true;
  void pay(long amount, Account to) throws Refused {
    if (!open) throw new Closed();
    if (cents < amount) throw new Refused("too little in " + number, amount - cents);
    cents -= amount;
    to.cents += amount;
    log.add("-" + amount);
    to.log.add("+" + amount);
  }
  void put(int amount) { cents += amount; }
  long close() { open = false; long rest = cents; cents = 0; return rest; }
  List<String> log() { return log; }
  public String toString() { return "#" + number + ':' + cents + log; }
}
class Bank {
  private Map<String, Account> accounts = new HashMap<String, Account>();
  private List<String> owners = new ArrayList<String>();
  private static final Integer NONE = new Integer(0);
  Account of(String owner) {
    if (!accounts.containsKey(owner)) {
      owners.add(owner);
      accounts.put(owner, new Account());
    }
    return accounts.get(owner);
  }
  boolean pay(String from, String to, int amount) {
    try {
      of(from).pay(amount, of(to));
      return true;
    } catch (Refused r) {
      System.out.println(r.getMessage() + ", " + r.missing() + " missing");
      return r.missing() < 10 && from != to;
    } catch (RuntimeException e) {
      throw e;
    } finally {
      owners.indexOf(from);
    }
  }
  Map<String, Integer> counts() {
    Map<String, Integer> all = new HashMap<String, Integer>();
    for (String owner : owners) {
      Integer old = NONE;
      for (String line : of(owner).log()) {
        old = new Integer(old.intValue() + line.length());
        all.put(owner, old);
      }
    }
    return all;
  }
  int longest() {
    int most = 0;
    Iterator<String> it = owners.iterator();
    while (it.hasNext()) {
      String s = it.next();
      if (s.length() > most) most = s.length();
      else it.remove();
    }
    for (Object o : owners) most += o.hashCode() == 0 ? 1 : 0;
    return most;
  }
  static StringBuilder join(List<String> parts, char between) {
    StringBuilder text = new StringBuilder();
    for (int i = 0; i < parts.size(); i++) {
      if (i > 0) text.append(between);
      text.append(parts.get(i)).append(' ').append(i).append(1L);
    }
    return text;
  }
  public static void main(String[] args) {
    Bank b = new Bank();
    b.of("ann").put(100);
    for (String s : args) b.of(s);
    boolean done = b.pay("ann", "bob", 60) & b.pay("bob", "ann", 70);
    System.out.println(done ? "done" : "not done");
    Integer n = b.counts().get("bob");
    System.out.println(n == null ? -1 : n.intValue());
    System.out.println(b.of("ann"));
    System.out.println(join(b.owners, ',').toString() + b.longest());
    b.of("bob").close();
    try {
      b.pay("bob", "ann", 1);
    } catch (Closed c) {
      System.out.println("closed " + c);
    }
    Object o = b.accounts;
    System.out.println(o instanceof HashMap && o == b.accounts);
  }
}

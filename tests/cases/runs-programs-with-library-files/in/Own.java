import java.util.ArrayList;
import java.util.Iterator;
import java.util.List;
import java.util.NoSuchElementException;
class Own {
  public static void main(String[] x) {
    Numbers n = new Numbers(3);
    while (n.hasNext()) System.out.print(n.next() + " ");
    System.out.println();
    List<Greets> l = new ArrayList<Greets>();
    l.add(new Hello());
    l.add(new Bye());
    for (Greets g : l) System.out.print(g.greet("you") + " ");
    System.out.println();
    n.next();
  }
}
interface Greets { String greet(String s); }
class Hello implements Greets { public String greet(String s) { return "hello " + s; } }
class Bye extends Hello { public String greet(String s) { return "bye after " + super.greet(s); } }
class Numbers {
  private int at;
  private final int end;
  Numbers(int end) { this.end = end; }
  boolean hasNext() { return at < end; }
  Integer next() { if (!hasNext()) throw new NoSuchElementException(); return new Integer(at++); }
}

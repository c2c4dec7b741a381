package shelf.util;
import shelf.Finder;
;
/* Things in a row. */
public interface Row<E> extends Finder<E> {
  int size(); boolean isEmpty();
  E get(int i) throws OutOfRow;
}
interface Pairs<K, V> { V put(K k, V v); ; }
;
// One thing, and the next.
class Link<E> { E item; Link<E> next; }
public class LinkRow<E> implements Row<E>, Finder<E> {
  private Link<E> head = new Link<E>();
  private Link<E> last = head;
  private int size;
  protected static final int[] ROOMS = { 1, 0x10, 64 }, none[];
  public LinkRow() { }
  LinkRow(Row<E> other) throws OutOfRow { this(); addAll(other); }
  private Link<E> before(int i) throws OutOfRow {
    if (i < 0 || i >= size) throw new OutOfRow("no " + i + " of " + size);
    Link<E> link = head;
    while (i-- > 0) link = link.next;
    return link;
  }
  public int size() { return size; }
  public boolean isEmpty() { return size == 0; }
  public void add(E e) {
    last.next = new Link<E>();
    last = last.next;
    last.item = e; // the last
    size++;
  }
  public E get(int i) throws OutOfRow { return before(i).next.item; }
  protected final boolean addAll(Row<E> other) throws OutOfRow {
    for (int i = 0, n = other.size(); i < n; i++) add(other.get(i));
    return other.size() != 0;
  }
  public E find(Object o) {
    Link<E> link = head.next;
    for (; link != null; link = link.next) {
      E e = link.item;
      if (o == null ? e == null : o.equals(e)) return e;
    }
    return null;
  }
}
/* The end. */

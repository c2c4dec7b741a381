package l;
public class Stack<E> implements Bag<E> {
  private E[] items = (E[]) new Object[4];
  private int size;
  private final Stack<E> below;
  public static int made;
  public Stack() { this(null); }
  public Stack(Stack<E> below) {
    this.below = below;
    made++;
  }
  public void push(E item) {
    if (size == items.length) {
      Object[] more = new Object[2 * size];
      for (int i = 0; i < size; i++) more[i] = items[i];
      items = (E[]) more;
    }
    items[size++] = item;
  }
  public E pop() {
    if (size == 0) return below == null ? null : below.pop();
    E top = items[--size];
    items[size] = null;
    return top;
  }
  public boolean isEmpty() { return size == 0 && (below == null || below.isEmpty()); }
  public E any(E other) { return isEmpty() ? other : items[0]; }
  public Stack<E> over() { return new Stack<E>(this); }
  public static Stack<Object> of(Object[] items) {
    Stack<Object> s = new Stack<Object>();
    for (Object o : items) s.push(o);
    return s;
  }
  public boolean equals(Object o) {
    if (!(o instanceof Stack)) return false;
    Stack<E> other = (Stack<E>) o;
    return other.size == size && ((Stack) o).below == below;
  }
  public int hashCode() { return size; }
}

package l;
public class Box<T> {
  public T item;
  public int count;
  public Box() { }
  public Box(T item) { this.item = item; }
  public T get() { return item; }
  public void put(T item) { this.item = item; }
  public void add(int n) { count += n; }
  public Box<T> with(T item) { this.item = item; return this; }
  public Box<T> own() { return this; }
  public static Box<String> same(Box<String> b) { return b; }
}

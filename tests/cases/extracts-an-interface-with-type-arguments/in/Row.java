package lib;
public class Row<T> {
  private T item;
  public Row() { }
  public T get() { return item; }
  public void set(T item) { this.item = item; }
  public int count(T[] all) { return all.length; }
}

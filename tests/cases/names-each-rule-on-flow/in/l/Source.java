package l;
public class Source<T> {
  public T item;
  public Source() throws Lost { }
  public T get() throws Lost { if (item == null) throw new Lost(); return item; }
  public static int drop() throws Lost, RuntimeException { return 1; }
}

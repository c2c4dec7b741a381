package lib;
public class Twin<T> implements Pair<T, T> {
  private T item;
  public Twin(T item) { this.item = item; }
  public T first() { return item; }
  public T second() { return item; }
}

package l;
public interface Bag<T> {
  T any(T other);
  boolean isEmpty();
}

package l;
public class Duo<K, V> extends Box<V> {
  public K key;
}

package shop;
/** Körbe */
public class Cart implements Comparable {
  private int n;
  public void put(int k) { n += k; }
  public int total() { return n; }
  public void merge(Cart[] others) { for (Cart c : others) put(c.total()); }
}
interface Comparable { }

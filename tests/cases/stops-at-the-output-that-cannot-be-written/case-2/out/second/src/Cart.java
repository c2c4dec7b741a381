package shop;
/** Körbe */
public class Cart implements Comparable, Basket {
  private int n;
  public void put(int k) { n += k; }
  public int total() { return n; }
  public void merge(Basket[] others) { for (Basket c : others) put(c.total()); }
}
interface Comparable { }

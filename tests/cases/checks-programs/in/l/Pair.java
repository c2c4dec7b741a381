package l;
public class Pair<A, B> {
  public A first;
  public B second;
  public Pair(A first, B second) {
    this.first = first;
    this.second = second;
  }
  public Pair<B, A> turned() { return new Pair<B, A>(second, first); }
  public A first() { return first; }
  public String toString() { return "(" + first + ", " + second + ")"; }
}

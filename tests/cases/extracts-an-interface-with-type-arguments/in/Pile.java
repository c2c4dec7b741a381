package lib;
public class Pile<T> {
  private T top;
  public Pile() { }
  public T swap(T next) { T old = top; top = next; return old; }
  public T swap(String word) { System.out.println(word); return top; }
}

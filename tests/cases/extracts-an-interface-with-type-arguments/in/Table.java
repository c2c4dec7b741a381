package lib;
public class Table<T> {
  private Row<T> first = new Row<T>();
  private Row<T> second = new Row<T>();
  public Table() { }
  public Row<T> row(int i) { return i == 0 ? first : second; }
}

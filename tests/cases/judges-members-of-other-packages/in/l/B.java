package l;
public class B {
  void near() { }
  public void open() { }
  private void own() { }
}

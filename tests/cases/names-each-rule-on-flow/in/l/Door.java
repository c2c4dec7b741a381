package l;
public class Door {
  public Door() throws Lost { }
}

package lib.odd;
public class Trouble extends Exception {
  public Trouble() { }
}

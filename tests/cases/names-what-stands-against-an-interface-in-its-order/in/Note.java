package lib;
public class Note {
  public Note() { }
  public void on() { }
}

package lib;
public class Note {
  public Note() { }
  public String text() { return "note"; }
}

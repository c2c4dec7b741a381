package l;
public class Shut {
  Shut() { }
}

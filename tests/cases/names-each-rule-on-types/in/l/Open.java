package l;
public class Open {
  public int far;
  int near;
  public static int all;
  static int few;
  public Open() { }
  Open(int i) { }
  public void go() { }
  void stay() { }
  public static void all() { }
  static void few() { }
}

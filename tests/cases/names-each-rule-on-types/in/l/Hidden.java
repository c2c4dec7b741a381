package l;
class Hidden {
  public static int f;
}

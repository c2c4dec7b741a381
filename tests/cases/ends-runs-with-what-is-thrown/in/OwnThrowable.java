class OwnThrowable {
  public static void main(String[] x) throws Throwable { Throwable t = new Low(); throw t; }
}
class High extends Throwable { }
class Low extends High { }

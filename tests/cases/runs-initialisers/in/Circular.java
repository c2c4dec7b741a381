class Circular {
  static int a = Other.b + 1;
  static int own = get();
  static int late = 6;
  static int get() { return late; }
  public static void main(String[] x) {
    System.out.println(a + " " + Other.b + " " + Other.c + " " + own + " " + late);
    System.out.println(Self.one + " " + Self.two + Self.it.seen);
  }
}
class Other { static int b = Circular.a + 10; static int c = b + Circular.late; }
class Self {
  static Self it = new Self();
  static int one = 1;
  static final int TWO = 2;
  static int two = TWO;
  int seen = one * 10 + TWO + two;
}

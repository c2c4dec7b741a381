class OwnError {
  static void f(int n) { if (n == 0) throw new Halt("h"); f(n - 1); }
  public static void main(String[] x) { System.out.println("a\n\nend normal"); f(5); }
}
class Halt extends Error { Halt(String s) { super(s + s); } }

class Kept {
  static void f(int n) { System.out.print(n); try { f(1 / n); } catch (Throwable t) { System.out.print("c"); } finally { System.out.print("f"); } }
  public static void main(String[] x) { f(3); }
}

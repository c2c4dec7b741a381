class Recursive {
  static int f(int n) { try { return f(n + 1); } catch (Error e) { for (int i = 0; true; i += 0) { } } finally { while (true) { } } }
  public static void main(String[] x) { f(0); }
}

class Mixed {
  static String log = "";
  static int f(int k) {
    for (int i = 0; ; i++) {
      try {
        switch (k) {
          case 0: return i;
          case 1: if (i < 2) continue; break;
          case 2: throw new RuntimeException();
          case 3: try { int[] a = new int[i]; return a[i]; } finally { log += "n"; if (i < 1) continue; }
          default: log += "d";
        }
        log += "s";
        if (i > 2) break;
      } catch (ArrayIndexOutOfBoundsException e) {
        log += "x";
        return -i;
      } catch (RuntimeException e) {
        log += "r";
        if (i == 1) return 50;
      } finally {
        log += i;
        if (i == 9) return 9;
      }
    }
    return 7;
  }
  public static void main(String[] x) {
    for (int k = 0; k < 5; k++) { int v = f(k); System.out.println(k + ": " + v + " " + log); log = ""; }
  }
}

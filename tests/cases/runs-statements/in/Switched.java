class Switched {
  static void t(int i) {
    System.out.print(i + ":");
    switch (i) {
      case 1: System.out.print("a");
      default: System.out.print("d");
      case 2: System.out.print("b"); break;
      case -1: System.out.print("m");
      case 3:
      case 4: { System.out.print("c"); int k = i; System.out.print(k); }
    }
    System.out.println();
  }
  static String c(char c) {
    switch (c) { case 'a': case 'e': return "vowel"; case 'z': return "last"; }
    return "none";
  }
  public static void main(String[] x) {
    for (int i = -1; i < 6; i++) t(i);
    System.out.println(c('e') + c('z') + c('q'));
    switch (x.length) { }
    switch (3) { default: System.out.println("only"); }
    switch (2) { case 1: System.out.println("no"); }
    int n = 0;
    for (int i = 0; i < 5; i++) {
      switch (i) { case 1: continue; case 3: break; default: n += i; }
      n += 10;
    }
    System.out.println(n);
    int k = 1;
    switch (k++) { case 1: k += 10; case 2: k *= 2; }
    System.out.println(k);
    switch (0) { case 0: int late; break; default: late = 4; System.out.println(late); }
    switch (1) { case 0: int late = 1; default: late = 4; System.out.println(late); }
  }
}

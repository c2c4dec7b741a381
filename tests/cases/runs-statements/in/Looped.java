class Looped {
  static boolean t(int i) { System.out.print("(" + i + ")"); return i < 3; }
  public static void main(String[] x) {
    int i = 0;
    while (t(i)) { i++; if (i == 2) continue; System.out.print(i); }
    System.out.println();
    do { System.out.print(i); i--; if (i == 1) continue; System.out.print("d"); } while (i > 0);
    System.out.println();
    int a, b;
    for (a = 0, b = 9; a < b; a += 2, b--, System.out.print(",")) { if (a == 4) continue; System.out.print(a + "" + b); }
    System.out.println(a + " " + b);
    for (int p = 0, q = 5; ; p++) { if (p == q) break; if (p % 2 == 0) continue; System.out.print(p); }
    for (; i < 2; ) { i++; System.out.print("."); }
    for (int p = 0; p < 3; p++) for (int q = 0; ; q++) { if (q > p) break; System.out.print(p * 10 + q + " "); }
    System.out.println();
    while (true) { while (true) { if (i++ > 4) break; } if (i > 6) break; }
    System.out.println(i);
    for (int p = 0; p < 0; p++) System.out.print("never");
    do ; while (i++ < 10);
    System.out.println(i);
    if (i > 3) if (i > 100) System.out.println("no"); else System.out.println("else");
    { int z = 4; System.out.println(z); }
    { int z = 5; System.out.println(z); }
    ;
  }
}

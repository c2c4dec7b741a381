class Characters {
  static int kind(char c) {
    switch (c) {
      case 'a': return 1;
      case '\n': return 2;
      case '0': case '1': c++;
      default: return c;
      case '\'': return 3;
    }
  }
  public static void main(String[] x) {
    for (char c = 'a'; c <= 'e'; c++) System.out.print(c);
    for (char c = 'e'; c > 'a'; c -= 2) System.out.print(c);
    System.out.println();
    System.out.println(kind('a') + " " + kind('\n') + " " + kind('1') + " " + kind('\'') + " " + kind('b'));
    for (long l = 2147483646L; l < 2147483650L; l++) System.out.print(l + " ");
    System.out.println();
    int n = 0;
    for (int i = 2147483645; i > 0; i++) n++;
    System.out.println(n);
    switch ('c' - 'a') { case 2: System.out.println("two"); }
    int k = 0;
    do { switch (k) { case 0: k = 5; continue; case 5: k = 6; break; case 6: k = 7; } System.out.print(k); } while (k < 7);
    System.out.println();
  }
}

class Fresh {
  int i; long l; char c; boolean b; String s; Fresh f; int[] a;
  static int si; static long sl; static char sc; static boolean sb; static String ss; static Fresh sf;
  final int set;
  final String other;
  Fresh(int n) { set = n; this.other = n > 1 ? "big" : "small"; }
  public static void main(String[] x) {
    Fresh f = new Fresh(2);
    System.out.println(f.i + " " + f.l + " " + (int) f.c + " " + f.b + " " + f.s + " " + f.f + " " + f.a);
    System.out.println(si + " " + sl + " " + (int) sc + " " + sb + " " + ss + " " + sf);
    System.out.println(f.set + f.other + new Fresh(1).other);
  }
}

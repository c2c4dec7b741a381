class Saved {
  static int[] a = { 1, 2 };
  static int[] b = { 10, 20 };
  static String s = "s";
  static int i = 1;
  int f = 3;
  static Saved it = new Saved();
  static int swap() { int[] c = a; a = b; b = c; return 1; }
  static String grow() { s = "changed"; return "+"; }
  static int bump(int n) { i += n; it = new Saved(); return n; }
  static Saved none() { System.out.print("none "); return null; }
  public static void main(String[] x) {
    a[swap()] += 5;
    System.out.println(a[1] + " " + b[1]);
    a[0] = swap() + a[0];
    System.out.println(a[0] + " " + b[0]);
    a[a[0] = 1] = 8;
    System.out.println(a[0] + " " + a[1]);
    int[] c = { 0, 0 };
    int[] d = c;
    c[0] = (c = b)[1];
    System.out.println(d[0] + " " + (c == b));
    s += grow();
    System.out.println(s);
    s = s + grow() + s;
    System.out.println(s);
    i += bump(10);
    System.out.println(i);
    i = i + bump(100) + i;
    System.out.println(i);
    it.f += bump(4);
    System.out.println(it.f);
    Saved old = it;
    it.f = bump(5);
    System.out.println(old.f + " " + it.f);
    try { none().f += bump(1000); } catch (NullPointerException e) { System.out.println(i); }
    try { none().f = bump(1000); } catch (NullPointerException e) { System.out.println(i); }
    try { none().f++; } catch (NullPointerException e) { System.out.println(i); }
    System.out.println(none().i + none().swap());
    int k = 0;
    int[] m = new int[4];
    m[k++] = m[k++] = k++;
    System.out.println(m[0] + " " + m[1] + " " + k);
    k = 1;
    m[k] = k++ + m[k] + k;
    System.out.println(m[1] + " " + k);
    Object[] o = new String[1];
    try { o[0] = none(); } catch (ArrayStoreException e) { System.out.println("never"); }
    try { o[0] = new Saved().self("made"); } catch (ArrayStoreException e) { System.out.println(" store"); }
  }
  Saved self(String s) { System.out.print(s); return this; }
}

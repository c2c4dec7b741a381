class Assigned {
  static int at(String s, int i) { System.out.print(s); return i; }
  static int[] of(String s, int[] a) { System.out.print(s); return a; }
  int f;
  static Assigned it(String s, Assigned a) { System.out.print(s); return a; }
  public static void main(String[] x) {
    int[] a = new int[3];
    of("a", a)[at("b", 1)] = at("c", 7);
    System.out.println(a[1]);
    of("a", a)[at("b", 1)] += at("c", 3);
    System.out.println(a[1]);
    it("o", new Assigned()).f = at("v", 2);
    System.out.println();
    Assigned o = new Assigned();
    it("o", o).f -= at("v", 2);
    System.out.println(o.f);
    int i = 1;
    i = i++ + i;
    System.out.println(i);
    i += i++ * 2 + i;
    System.out.println(i);
    int j = 0;
    a[j] = j = 2;
    System.out.println("" + a[0] + a[2] + j);
    a[j--] = j;
    System.out.println("" + a[2] + j);
    int k = 5;
    k = k + (k = 3) * k;
    System.out.println(k);
    int m = 2;
    m *= m = m + 3;
    System.out.println(m);
  }
}

class Covariant {
  public static void main(String[] x) {
    Covariant[] a = new Sub[2];
    a[0] = new Sub();
    try { a[1] = new Covariant(); } catch (ArrayStoreException e) { System.out.println("store"); }
    System.out.println(a[1] == null);
    Object o = a;
    System.out.println((o instanceof Sub[]) + " " + (o instanceof Covariant[]) + " " + (o instanceof Object[]) + " " + (o instanceof Covariant));
    Object[] p = a;
    p[1] = null;
    try { p[1] = "s"; } catch (ArrayStoreException e) { System.out.println("store"); }
    Object[][] q = new String[2][3];
    q[0] = new String[1];
    try { q[1] = new Object[1]; } catch (ArrayStoreException e) { System.out.println("store"); }
    Object[] r = q;
    try { r[0] = "t"; } catch (ArrayStoreException e) { System.out.println("store"); }
    r = new Object[1];
    r[0] = r;
    System.out.println(((Object[]) r[0])[0] == r);
    Runs[] s = new Runner[1];
    s[0] = new Runner();
    try { s[0] = new Other(); } catch (ArrayStoreException e) { System.out.println("store"); }
    o = new int[1];
    System.out.println((o instanceof int[]) + " " + (o instanceof long[]) + " " + (o instanceof Object[]));
    try { o = (char[]) o; } catch (ClassCastException e) { System.out.println("cast"); }
    o = new int[1][1];
    System.out.println((o instanceof Object[]) + " " + (o instanceof int[][]) + " " + (o instanceof int[]));
    a = (Sub[]) a;
    a = new Covariant[] { new Sub() };
    try { a = (Sub[]) a; } catch (ClassCastException e) { System.out.println("cast"); }
    o = null;
    System.out.println((Sub[]) o == null);
    System.out.println(o instanceof Sub[]);
  }
}
class Sub extends Covariant { }
interface Runs { }
class Runner implements Runs { }
class Other implements Runs { }

package p;
class InPackage {
  public static void main(String[] x) throws Own {
    System.out.println(new InPackage() + "");
    try { throw new Own("caught"); } catch (Own o) { System.out.println(o); }
    Object[] a = new Own[1];
    try { a[0] = "s"; } catch (ArrayStoreException e) { System.out.println("store"); }
    throw new Own("out");
  }
  public int hashCode() { return 43981; }
}
class Own extends Exception { Own(String s) { super(s); } }

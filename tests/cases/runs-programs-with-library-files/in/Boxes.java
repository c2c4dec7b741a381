class Boxes {
  public static void main(String[] x) {
    Object[] o = { new Integer(-5), new Long(-5L), new Character('c'), new Boolean(true), "s" };
    for (Object a : o) { for (Object b : o) System.out.print(a.equals(b) ? 1 : 0); System.out.println(" " + a); }
    System.out.println(new Integer(3).equals(new Integer(3)) + " " + (new Integer(3) == new Integer(3)) + new Long(4294967298L).hashCode() + " " + new Boolean(false).hashCode());
    System.out.println(new Integer(7).intValue() + new Long(8).longValue() + new Character('a').charValue());
    StringBuilder b = new StringBuilder();
    b.append(1).append('c').append("s").append(2L).append(true).append((Object) null).append(new char[] { 'x', 'y' });
    System.out.println(b + " " + b.length());
    try { throw new IllegalArgumentException("arg"); }
    catch (IllegalStateException e) { System.out.println("no"); }
    catch (RuntimeException e) { System.out.println(e); }
    throw new UnsupportedOperationException("op");
  }
}

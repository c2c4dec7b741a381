class Below {
  static void t(RuntimeException e) {
    try { throw e; }
    catch (ArrayIndexOutOfBoundsException f) { System.out.println("array"); }
    catch (IndexOutOfBoundsException f) { System.out.println("index " + (f == e)); }
    catch (RuntimeException f) { System.out.println("runtime " + f); }
  }
  public static void main(String[] x) {
    t(new StringIndexOutOfBoundsException("s"));
    t(new ArrayIndexOutOfBoundsException());
    t(new IndexOutOfBoundsException("i"));
    t(new NullPointerException());
    t(new ClassCastException("c"));
    try { throw new NoClassDefFoundError("n"); }
    catch (LinkageError e) { System.out.println(e.toString() + e.getMessage()); }
    try { throw new Error(); }
    catch (Throwable e) { System.out.println(e + " " + e.getMessage()); }
  }
}

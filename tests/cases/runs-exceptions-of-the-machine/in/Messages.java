class Messages {
  public static void main(String[] x) {
    System.out.println(new Own("told"));
    System.out.println(new Own(null));
    System.out.println(new RuntimeException((String) null));
    System.out.println(new RuntimeException(""));
    System.out.println(new Plain().getMessage() + new Plain());
    Throwable t = new Exception("m");
    System.out.println(t + t.getMessage() + t.equals(t) + (t == null));
    try { throw new ExceptionInInitializerError("by hand"); } catch (LinkageError e) { System.out.println(e.getMessage()); }
    try { throw new NullPointerException("by hand"); } catch (RuntimeException e) { System.out.println(e); }
    throw new Own("last");
  }
}
class Own extends RuntimeException {
  Own(String s) { super(s); }
  public String getMessage() { return super.getMessage() == null ? null : "<" + super.getMessage() + ">"; }
}
class Plain extends Error { public String toString() { return "plain " + super.toString(); } }

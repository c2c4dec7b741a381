class Told {
  public static void main(String[] x) {
    System.out.println(new Fixed(255) + " " + new Fixed(-1) + " " + new Fixed(0).toString());
    Object o = new Fixed(16);
    System.out.println(o);
    System.out.println(new Null() + "|" + new Null().toString() + "|");
    String s = "a";
    s += new Null();
    s += null;
    System.out.println(s);
    try { s += new Bad(); } catch (RuntimeException e) { System.out.println(s + e.getMessage()); }
    System.out.println(o.equals(new Fixed(16)) + " " + o.equals(o));
    System.out.print(new Bad());
  }
}
class Fixed { private final int n; Fixed(int n) { this.n = n; } public int hashCode() { return n; } }
class Null { public String toString() { return null; } }
class Bad { public String toString() { System.out.print("told "); throw new RuntimeException("bad"); } }

class Cut {
  public static void main(String[] x) {
    String s = "program";
    System.out.println(s.substring(3) + "|" + s.substring(7) + "|" + s.substring(0, 3) + "|" + s.substring(2, 2) + "|");
    System.out.println(s.compareTo("progress") + " " + "a".compareTo("abc") + " " + s.compareTo(s) + " " + "b".compareTo("") + " " + "".compareTo(""));
    System.out.println(s.equals("pro" + s.substring(3)) + " " + s.equals(null) + " " + s.equals(new Cut()) + " " + s.equals((Object) "program"));
    System.out.println(s.hashCode() + " " + "".hashCode() + " " + "polygenelubricants".hashCode() + " " + "Aa".hashCode() + "BB".hashCode());
    System.out.println(s.toString() == s);
    String r = "";
    for (int i = s.length() - 1; i >= 0; i--) r += s.charAt(i);
    System.out.println(r);
    Object o = s;
    System.out.println(o.equals("program") + " " + o.hashCode() + o.toString());
    try { s.substring(8); } catch (IndexOutOfBoundsException e) { System.out.println(e instanceof StringIndexOutOfBoundsException); }
  }
}

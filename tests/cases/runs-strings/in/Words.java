class Words {
  static String upper(String s) {
    String r = "";
    for (int i = 0; i < s.length(); i++) { char c = s.charAt(i); r += c >= 'a' && c <= 'z' ? (char) (c - 32) : c; }
    return r;
  }
  static int count(String s, char of) { int n = 0; for (int i = 0; i < s.length(); i++) if (s.charAt(i) == of) n++; return n; }
  static String hex(int v) { String r = ""; do { r = "0123456789abcdef".charAt(v & 15) + r; v >>>= 4; } while (v != 0); return r; }
  static boolean same(String s) { return s.length() < 2 || s.charAt(0) == s.charAt(s.length() - 1) && same(s.substring(1, s.length() - 1)); }
  static int parse(String s) { int v = 0; for (int i = 0; i < s.length(); i++) v = v * 10 + (s.charAt(i) - '0'); return v; }
  public static void main(String[] x) {
    System.out.println(upper("Some words, 12") + count("banana", 'a') + hex(48879) + hex(-1) + hex(0));
    System.out.println(same("level") + " " + same("levels") + " " + same(""));
    System.out.println(parse("2147483647") + parse("1"));
    String[] w = { "pear", "apple", "fig", "Apple", "app" };
    for (int i = 0; i < w.length; i++)
      for (int j = i + 1; j < w.length; j++)
        if (w[j].compareTo(w[i]) < 0) { String t = w[i]; w[i] = w[j]; w[j] = t; }
    for (String s : w) System.out.print(s + " ");
    System.out.println();
  }
}

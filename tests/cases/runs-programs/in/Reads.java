class Reads {
  public static void main(String[] x) throws Wrong {
    String[] texts = { "1+2*3", "(1+2)*3", "2*(3+4)*5-6/4", "-(2-7)", "8/(4-4)", "2+", "2)" };
    for (String t : texts) {
      try { System.out.println(t + " = " + new Reader(t).all()); }
      catch (ArithmeticException e) { System.out.println(t + ": " + e.getMessage()); }
      catch (Wrong e) { System.out.println(t + ": " + e.getMessage() + " at " + e.at); }
      finally { Reader.count++; }
    }
    System.out.println(Reader.count);
    new Reader("?").all();
  }
}
class Wrong extends Exception { final int at; Wrong(String s, int at) { super(s); this.at = at; } }
class Reader {
  static int count;
  private final String text;
  private int at;
  Reader(String text) { this.text = text; }
  private char look() { return at < text.length() ? text.charAt(at) : '$'; }
  long all() throws Wrong { long v = sum(); if (look() != '$') throw new Wrong("more", at); return v; }
  private long sum() throws Wrong {
    long v = product();
    while (true) {
      switch (look()) {
        case '+': at++; v += product(); break;
        case '-': at++; v -= product(); break;
        default: return v;
      }
    }
  }
  private long product() throws Wrong {
    long v = item();
    for (char c = look(); c == '*' || c == '/'; c = look()) { at++; if (c == '*') v *= item(); else v /= item(); }
    return v;
  }
  private long item() throws Wrong {
    char c = look();
    if (c == '-') { at++; return -item(); }
    if (c == '(') { at++; long v = sum(); if (look() != ')') throw new Wrong("open", at); at++; return v; }
    if (c < '0' || c > '9') throw new Wrong("no number", at);
    long v = 0;
    do { v = v * 10 + look() - '0'; at++; } while (look() >= '0' && look() <= '9');
    return v;
  }
}

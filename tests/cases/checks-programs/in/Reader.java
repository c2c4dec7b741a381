/* A reader of sums and products: it tells where a text is none. */
class Reader {
  private String text;
  private int at;
  static final char END = '\0';
  static char[] signs = {'+', '-', '*', '/', '%'};
  static final String DIGITS = "0123456789" + "abcdef";
  Reader(String text) { this.text = text; }
  char peek() { return at < text.length() ? text.charAt(at) : END; }
  private char take() { char c = peek(); at++; return c; }
  static boolean isSign(char c) {
    for (final char s : signs) if (s == c) return true;
    return false;
  }
  long sum() {
    long left = product();
    while (true) {
      switch (peek()) {
        case '+': take(); left += product(); break;
        case '-': take(); left = left - product(); break;
        default: return left;
      }
    }
  }
  private long product() {
    long left = atom();
    for (char c = peek(); c == '*' || c == '/' || c == '%'; c = peek()) {
      take();
      long right = atom();
      if (c == '*') left *= right;
      else if (c == '/') left /= right;
      else left %= right;
    }
    return left;
  }
  private long atom() {
    char c = peek();
    if (c == '(') {
      take();
      long inner = sum();
      if (take() != ')') throw new IndexOutOfBoundsException("at " + (at - 1));
      return inner;
    }
    if (c == '-') { take(); return -atom(); }
    if (c == '~') { ++at; return ~atom(); }
    long n = 0L;
    int from = at;
    for (; c >= '0' && c <= '9'; c = peek()) {
      n = n * 10 + (c - '0');
      at++;
    }
    if (from == at) throw new Error(text.substring(0, at) + "?" + text.substring(at));
    return n;
  }
  static String hex(long n) {
    String s = "";
    do {
      s = DIGITS.charAt((int) (n & 0xf)) + s;
      n >>>= 4;
    } while (n != 0);
    return "0x" + s;
  }
  static int bits(int n) { int k = 0; for (; n != 0; n &= n - 1, k++) { } return k; }
  static boolean all(boolean[] of) {
    boolean yes = true;
    for (boolean b : of) yes &= b;
    return yes ^ false;
  }
  public static void main(String[] args) {
    String[] texts = args.length > 0 ? args : new String[] {"1+2*3", "-(4-6)%2", "7/", "2147483648*2"};
    boolean[] good = new boolean[texts.length];
    int i = -1;
    for (String s : texts) {
      i += 1;
      try {
        long n = new Reader(s).sum();
        System.out.println(s + " = " + n + ' ' + hex(n) + ' ' + bits((int) n));
        good[i] = !isSign(s.charAt(0));
      } catch (ArithmeticException e) {
        System.out.println(e.getMessage());
      } catch (Error e) {
        System.out.println(e);
      }
    }
    System.out.println(all(good));
    char[] word = {'a', 'b'};
    word[1]++;
    word[0] += 25;
    System.out.println(word);
    int top = 1 << 31, low = top >> 31, up = top >>> 31L;
    System.out.println(top + low + up == -2147483648 ? 'y' : 'n');
  }
}

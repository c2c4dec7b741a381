class Narrowed {
  static long l(long v) { return v; }
  static String k(int i) { return "int"; }
  static String k(long i) { return "long"; }
  static String k(char i) { return "char"; }
  public static void main(String[] x) {
    System.out.println((int) 4294967297L + " " + (int) 2147483648L + " " + (int) -2147483649L);
    System.out.println((int) (char) -1 + " " + (int) (char) 65601 + " " + (char) 65601L);
    System.out.println((long) -1 + " " + (long) (char) -1 + " " + (int) 'z');
    int i = 2147483647;
    i += 1L;
    System.out.println(i);
    i += 10000000000L;
    System.out.println(i);
    i *= 3000000000L;
    System.out.println(i);
    i = 100;
    i /= 30L;
    i -= 'a';
    System.out.println(i);
    char c = 'a';
    c += 65536;
    System.out.println(c);
    c -= 98;
    System.out.println((int) c);
    c *= 2;
    System.out.println((int) c);
    c /= 3;
    c %= 100;
    System.out.println((int) c);
    c ^= 1000000;
    System.out.println((int) c);
    c--;
    --c;
    System.out.println((int) c++ + (int) ++c);
    long l = 5;
    l += 'b' - 1;
    l <<= 40;
    l++;
    System.out.println(l);
    char d = (char) 98;
    System.out.println(d);
    System.out.println(k('a') + k(1) + k(1L) + k('a' + 1) + k(1 + 1L) + k(c++) + k((char) 1) + k(-c));
    System.out.println('a' < 98 == 97L >= 'a');
    System.out.println(1 == 1L && 'a' == 97 && 97L == 'a');
    System.out.println(x.length == 0 ? l : i);
  }
}

class Joined {
  String s;
  public String toString() { return "J" + s; }
  public static void main(String[] x) {
    String n = null;
    Object o = null;
    Joined j = new Joined();
    char c = 'x';
    long l = -9000000000L;
    System.out.println(n + "|" + o + "|" + j.s + "|" + j);
    System.out.println(c + 1 + "|" + c + 1 + "|" + (c + c) + "|" + (char) (c + 1) + "|" + c + c);
    System.out.println("" + l + true + false + 'q' + -5 + null);
    System.out.println(1 + 2 + "3" + 4 + 5 + (6 + 7));
    n += n;
    System.out.println(n);
    n += 1 + 2;
    n += 'c';
    n += l;
    n += j;
    n += true;
    System.out.println(n);
    j.s = "own";
    j.s += j;
    System.out.println(j.s + j.s.length());
    String[] a = new String[2];
    int i = 0;
    a[i++] += "k" + i;
    System.out.println(a[0] + a[1] + i);
    System.out.println('a' + 'b' + "c" + 'd' + 'e');
    System.out.println(null + "x" + new Joined());
  }
}

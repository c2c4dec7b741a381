class Sieve {
  public static void main(String[] x) {
    boolean[] not = new boolean[100];
    int n = 0;
    for (int i = 2; i < not.length; i++) {
      if (not[i]) continue;
      n++;
      System.out.print(i + " ");
      for (int j = i * i; j < not.length; j += i) not[j] = true;
    }
    System.out.println("\n" + n);
    long h = 1125899906842597L;
    for (int i = 0; i < 20; i++) h = h * 31 + (h >>> 7 ^ i);
    System.out.println(h);
  }
}

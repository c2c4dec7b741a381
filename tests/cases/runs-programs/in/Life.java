class Life {
  public static void main(String[] x) {
    String[] rows = { ".....", "..#..", "..#..", "..#..", "....." };
    boolean[][] now = new boolean[5][5];
    for (int i = 0; i < 5; i++) for (int j = 0; j < 5; j++) now[i][j] = rows[i].charAt(j) == '#';
    for (int turn = 0; turn < 2; turn++) {
      boolean[][] then = new boolean[5][5];
      for (int i = 0; i < 5; i++) {
        for (int j = 0; j < 5; j++) { then[i][j] = next(now, i, j); System.out.print(then[i][j] ? '#' : '.'); }
        System.out.println();
      }
      now = then;
      System.out.println();
    }
  }
  static boolean next(boolean[][] b, int i, int j) {
    int n = 0;
    for (int p = i - 1; p <= i + 1; p++) {
      if (p < 0 || p >= b.length) continue;
      for (int q = j - 1; q <= j + 1; q++) {
        if (q < 0 || q >= b[p].length || p == i && q == j) continue;
        if (b[p][q]) n++;
      }
    }
    return n == 3 || n == 2 && b[i][j];
  }
}

class Queens {
  private final int[] at;
  private int found;
  Queens(int n) { at = new int[n]; }
  private boolean free(int row, int col) {
    for (int r = 0; r < row; r++) { int d = at[r] - col; if (d == 0 || d == row - r || d == r - row) return false; }
    return true;
  }
  void place(int row) {
    if (row == at.length) { found++; if (found == 1) show(); return; }
    for (int c = 0; c < at.length; c++) if (free(row, c)) { at[row] = c; place(row + 1); }
  }
  void show() { for (int c : at) { for (int i = 0; i < at.length; i++) System.out.print(i == c ? 'Q' : '.'); System.out.println(); } }
  public static void main(String[] x) { Queens q = new Queens(5); q.place(0); System.out.println(q.found); }
}

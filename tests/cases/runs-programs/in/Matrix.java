class Matrix {
  private final long[][] m;
  Matrix(long[][] m) { this.m = m; }
  Matrix times(Matrix o) {
    long[][] r = new long[m.length][o.m[0].length];
    for (int i = 0; i < r.length; i++) for (int j = 0; j < r[i].length; j++) for (int k = 0; k < o.m.length; k++) r[i][j] += m[i][k] * o.m[k][j];
    return new Matrix(r);
  }
  public String toString() { String s = ""; for (long[] row : m) { for (long v : row) s += v + " "; s += "\n"; } return s; }
  public static void main(String[] x) {
    Matrix a = new Matrix(new long[][] { { 1, 1 }, { 1, 0 } });
    Matrix p = a;
    for (int i = 0; i < 10; i++) p = p.times(a);
    System.out.print(p);
    System.out.print(a.times(new Matrix(new long[][] { { 2, 3, 4 }, { 5, 6, 7 } })));
    System.out.print(a.times(new Matrix(new long[][] { { 1 } })));
    new Matrix(new long[][] { { 1 } }).times(a).times(a);
  }
}

class Loops {
  public static void main(String[] x) {
    System.out.print("start ");
    for (int i = 0; i < 3; i++) System.out.print(i);
    int j = 0;
    while (j < 2) { System.out.print("w"); j++; }
    do { System.out.print("d"); j--; } while (j > 0);
    int[] a = { 1, 2 };
    for (int k : a) System.out.print("e");
    System.out.print(" done");
  }
}

class Left {
  public static void main(String[] x) {
    for (int i = 0; i < 6; i++) {
      try {
        System.out.print(i);
        if (i == 1) continue;
        if (i == 4) break;
        System.out.print("a");
      } finally { System.out.print("f "); }
      System.out.print("b ");
    }
    System.out.println();
    int n = 0;
    while (n < 3) {
      try {
        try { n++; if (n == 2) continue; } finally { System.out.print("x" + n); }
        System.out.print("y");
      } finally { System.out.print("z "); }
    }
    System.out.println();
    switch (n) { case 3: try { break; } finally { System.out.print("s "); } default: System.out.print("never"); }
    for (int i = 0; i < 3; i++) {
      try { throw new RuntimeException("r" + i); } finally { if (i == 1) break; continue; }
    }
    do { try { break; } finally { System.out.print("d "); } } while (true);
    int[] a = { 1, 2, 3 };
    for (int i : a) try { if (i == 2) continue; System.out.print(i); } finally { System.out.print("e "); }
  }
}

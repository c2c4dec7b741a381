class FromFinally {
  public static void main(String[] x) {
    try { throw new Error("lost"); } finally { Object o = x; String[] s = (String[]) o; System.out.println(s.length); throw new ArrayStoreException(); }
  }
}

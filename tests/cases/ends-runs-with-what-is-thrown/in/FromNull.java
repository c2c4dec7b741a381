class FromNull {
  public static void main(String[] x) { RuntimeException e = null; throw e; }
}

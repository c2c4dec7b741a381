class ByStore {
  public static void main(String[] x) {
    Object[] a = x;
    System.out.println("before");
    a = new ByStore[2];
    a[1] = new ByStore();
    a[0] = "text";
  }
}

class ByCast {
  static class0 it(Object o) { return (class0) o; }
  public static void main(String[] x) {
    System.out.println(it(null) == null);
    System.out.println(it(new class1()) != null);
    it("text");
  }
}
class class0 { }
class class1 extends class0 { }

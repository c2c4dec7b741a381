class Super {
  public static void main(String[] x) {
    A a = new C();
    System.out.println(a.m(2));
    System.out.println(a.toString().equals(a.toString()) + " " + a.equals(a) + " " + (a.hashCode() == a.hashCode()));
    B b = new C();
    System.out.println(b.m(0) + b.k());
  }
}
abstract class A {
  String m(int i) { return "A" + i + k(); }
  abstract String k();
}
class B extends A {
  String m(int i) { return "B" + super.m(i + 1); }
  String k() { return "bk"; }
}
class C extends B {
  String m(int i) { return i == 0 ? "zero" + super.k() : "C" + super.m(i * 10) + this.m(i - i); }
  String k() { return "ck" + super.k(); }
  public int hashCode() { return 5; }
}

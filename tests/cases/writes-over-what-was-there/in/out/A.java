class A { void m() { System.out.println("a"); } }
class B extends A { void m() { System.out.println("b"); } }
class Main {
  public static void main(String[] args) {
    B x = new B();
    x.m();
  }
}
// what was there, and longer

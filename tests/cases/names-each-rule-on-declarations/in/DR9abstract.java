abstract class A {
  abstract static void m();
}

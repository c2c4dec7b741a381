class A {
  String a;
  Strin b;
}

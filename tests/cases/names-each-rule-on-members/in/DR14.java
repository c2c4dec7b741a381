class A {
  boolean equals(Object o) { return true; }
}

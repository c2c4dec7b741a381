class A { }
static class B { }

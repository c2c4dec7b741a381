abstract final class A { }

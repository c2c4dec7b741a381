package p;
class User { private static void main(String[] x) { } }

class Thrown { public static void main(String[] x) { throw new Exception(); } }

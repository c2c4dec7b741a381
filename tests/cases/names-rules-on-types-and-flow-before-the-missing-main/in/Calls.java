class Calls { public static void main(String[] x) { none(); } }

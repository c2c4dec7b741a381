class Right { public static void main(String[] x) { System.out.print("never"); } }

package p;
public class Library { public static void main(String[] x) { System.out.print("never"); } }

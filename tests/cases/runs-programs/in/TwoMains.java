class TwoMains {
  public static void main(String[] x) { System.out.println("one " + x.length); Second.main(new String[4]); main("s"); }
  static void main(String s) { System.out.println("text " + s); }
}
class Second { public static void main(String[] x) { System.out.println("two " + x.length); if (x.length < 4) TwoMains.main(new String[5]); } }

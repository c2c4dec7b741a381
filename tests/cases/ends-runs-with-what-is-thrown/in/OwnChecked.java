class OwnChecked {
  public static void main(String[] x) throws Broken { System.out.print("before"); throw new Broken(); }
}
class Broken extends Exception { }

class Thrown {
  static int zero;
  static void t(int i) {
    Object o = "s";
    Object[] a = new String[2];
    String s = "abc";
    int[] none = null;
    switch (i) {
      case 0: i = 1 / zero; break;
      case 1: i = 1 % zero; break;
      case 2: System.out.println(1L / zero); break;
      case 3: i %= zero; break;
      case 4: i = none[0]; break;
      case 5: i = none.length; break;
      case 6: i = a[2].hashCode(); break;
      case 7: i = a[-1].hashCode(); break;
      case 8: a = new Object[zero - 3]; break;
      case 9: a[0] = new Thrown(); break;
      case 10: o = (Thrown) o; break;
      case 11: i = s.charAt(3); break;
      case 12: s = s.substring(2, 1); break;
      case 13: s = s.substring(4); break;
      case 14: i = a[0].hashCode(); break;
      case 15: s = null; i = s.length(); break;
      case 16: throw null;
      case 17: o = (int[]) (Object) a; break;
      case 18: i /= zero; break;
      case 19: i = new int[zero - 1].length; break;
      case 20: s = s.substring(-1); break;
      case 21: i = s.charAt(-1); break;
      case 22: i = s.compareTo(null); break;
      case 23: o = null; s = (String) o; System.out.print(s); break;
    }
    System.out.println(" none");
  }
  public static void main(String[] x) {
    for (int i = 0; i < 24; i++) {
      System.out.print(i + " ");
      try { t(i); }
      catch (ArithmeticException e) { System.out.println(e + ", " + e.getMessage()); }
      catch (NullPointerException e) { System.out.println("NullPointerException"); }
      catch (ClassCastException e) { System.out.println("ClassCastException"); }
      catch (NegativeArraySizeException e) { System.out.println("NegativeArraySizeException"); }
      catch (ArrayStoreException e) { System.out.println("ArrayStoreException"); }
      catch (ArrayIndexOutOfBoundsException e) { System.out.println("ArrayIndexOutOfBoundsException"); }
      catch (StringIndexOutOfBoundsException e) { System.out.println("StringIndexOutOfBoundsException"); }
    }
  }
}

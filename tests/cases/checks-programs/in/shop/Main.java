package shop;
import java.util.*;
public class Main {
  static String zeichen = "Σ€😀"; static List<Ware> liste = Cart.leer().waren();
  public static void main(String[] args) {
    Cart c = Cart.leer();
    c.put(new Ware("Tür", 'Ω'));
    /* — */ List<Ware> l = c.waren(); /* … */ c.waren().add(l.get(0));
    System.out.println("Σ " + c.preis() + zeichen.length() + l.size());
  }
}

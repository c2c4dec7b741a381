package shop;
import java.util.*;
/** Ein Korb für alle. */
public class Cart {
  private List<Ware> waren = new ArrayList<Ware>();
  private static Cart leer = new Cart();
  public void put(Ware w) { waren.add(w); }
  public List waren() { return waren; }
  public static Cart leer() { return leer == null ? new Cart() : leer; }
  int preis() {
    int preis = 0;
    for (Ware w : waren) preis += w.preis;
    return preis;
  }
}
class Ware {
  final int preis;
  final String name;
  Ware(String name, int preis) { this.name = name; this.preis = preis; }
  Ware(String name) { this(name, 'ß'); }
}

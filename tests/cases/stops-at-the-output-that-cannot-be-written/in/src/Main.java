package shop;
public class Main {
  static Cart cart = new Cart();
  public static void main(String[] args) {
    cart.put(3); // Cart
    cart.merge(new Cart[] { cart });
    System.out.println(cart.total());
  }
}

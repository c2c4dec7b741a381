class Bell implements Ringing {
  int rings;
  public void ring() { rings++; System.out.println("ring"); }
}
class Shop {
  Bell door = new Bell();
  void open(Ringing bell) { bell.ring(); }
  int count(Bell bell) { return bell.rings; }
  public static void main(String[] args) {
    Shop shop = new Shop();
    shop.open(shop.door);
    System.out.println(shop.count(shop.door));
  }
}

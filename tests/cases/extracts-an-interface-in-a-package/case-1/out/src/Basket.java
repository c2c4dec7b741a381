package shop;

public interface Basket {
    void put(int k);
    int total();
    void merge(Basket[] others);
}

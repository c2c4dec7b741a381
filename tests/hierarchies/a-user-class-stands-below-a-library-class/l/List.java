package l;

public interface List<E> {
    void put(E e);
    E get();
}

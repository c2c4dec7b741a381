package l;

public class Node<E> implements List<E> {
    private E kept;
    public void put(E e) { System.out.println("Node.put(E)"); if (e != null) kept = e; }
    public E get() { System.out.println("Node.get()"); return kept; }
}

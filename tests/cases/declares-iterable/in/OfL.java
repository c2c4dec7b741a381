package l;
public interface Iterator<E> { boolean hasNext(); E next(); }

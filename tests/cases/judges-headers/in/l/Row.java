package l;
public interface Row<E> { }

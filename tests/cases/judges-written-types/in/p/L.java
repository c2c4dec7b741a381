package p;
public class L<E> { }

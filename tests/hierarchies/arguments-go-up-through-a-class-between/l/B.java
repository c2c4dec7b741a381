package l;

public class B<U> extends A<U> { }

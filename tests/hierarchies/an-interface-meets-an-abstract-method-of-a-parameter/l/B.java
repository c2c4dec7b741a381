package l;

public abstract class B extends A<String> implements I { }

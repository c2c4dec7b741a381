package l;

public class B extends A<String> { }

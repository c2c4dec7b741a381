package l;

public abstract class A implements K { }

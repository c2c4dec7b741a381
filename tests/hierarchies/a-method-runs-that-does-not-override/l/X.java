package l;

public abstract class X extends C implements K<Exception> { }

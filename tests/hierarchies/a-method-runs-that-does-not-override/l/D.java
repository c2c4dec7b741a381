package l;

public class D extends C implements J { }

package l;

public class C extends B { }

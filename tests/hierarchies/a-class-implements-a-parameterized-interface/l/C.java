package l;

public class C extends B implements I<String> { }

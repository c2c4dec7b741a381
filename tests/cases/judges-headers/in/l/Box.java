package l;
public class Box<T> { }

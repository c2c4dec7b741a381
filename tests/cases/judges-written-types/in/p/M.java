package p;
public class M<K, V> { }

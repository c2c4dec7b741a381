package lib;
public interface Pair<A, B> { A first(); B second(); }

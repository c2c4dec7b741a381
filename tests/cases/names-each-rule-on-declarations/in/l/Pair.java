package l;
public interface Pair<S, T> { }
class Hidden { }

package lib;
public interface Lines extends Iterable<String> { }

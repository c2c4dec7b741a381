package u; public abstract class Rows implements Iterable<String> { }

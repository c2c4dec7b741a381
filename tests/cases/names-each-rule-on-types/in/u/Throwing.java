package java.lang; import java.util.Iterator; public interface Iterable<T> { Iterator<T> iterator() throws Error; }

package l;

public class G<T> { }

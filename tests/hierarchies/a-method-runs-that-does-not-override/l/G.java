package l;

public class G extends F implements J { }

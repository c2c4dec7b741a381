package l;
public class Below extends Box<Below> { }

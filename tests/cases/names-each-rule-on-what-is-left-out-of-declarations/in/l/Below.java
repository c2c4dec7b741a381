package l;
public class Below extends Box<String> { }

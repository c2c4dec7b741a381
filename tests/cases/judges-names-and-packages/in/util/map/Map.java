package util.map;
public class Map { }
class Hidden { }

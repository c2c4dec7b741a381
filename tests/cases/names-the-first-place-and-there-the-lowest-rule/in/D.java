package l;
class String { }

package l;
class Raw extends Box { }

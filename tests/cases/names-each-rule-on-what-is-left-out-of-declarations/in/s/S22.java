package s;
class s { }

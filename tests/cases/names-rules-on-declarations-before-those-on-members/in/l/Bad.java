package l;
class Bad { Missing a; }

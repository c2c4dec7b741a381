package l;
class Bad { int hashCode() { return 1; } }

import l.*;
class A<T> extends Box<T> { }

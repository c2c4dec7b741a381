import l.*;
class B extends Box<B> { }
class B<T> { }

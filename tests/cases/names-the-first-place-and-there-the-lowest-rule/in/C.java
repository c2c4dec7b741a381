import l.*;
class C { Box<l.Box<C>[]> a; }

import l.*;
class B extends Box { }

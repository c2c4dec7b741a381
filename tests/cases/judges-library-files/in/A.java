import l.*;
class A extends Box { }

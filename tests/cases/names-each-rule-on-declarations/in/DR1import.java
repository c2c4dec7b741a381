import l.*;
import l.Hidden;
class A { }

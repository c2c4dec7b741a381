package l;
import p.A;
class L { }

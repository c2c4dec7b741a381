package l;
class C { D d; }

package p;
class p { }

class C extends C { }
class C { }

package H;
class H { }
class H { }

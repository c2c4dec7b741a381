import java.*;
class A { }

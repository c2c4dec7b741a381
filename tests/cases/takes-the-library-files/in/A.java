import java.util.*;
class A { List<String> a; }

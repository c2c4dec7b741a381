import java.util.*;
class A { List<String, String> a; }

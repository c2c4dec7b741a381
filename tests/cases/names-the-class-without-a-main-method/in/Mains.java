class NotStatic { public void main(String[] x) { } }
class NotPublic { static void main(String[] x) { } }
class Protected { protected static void main(String[] x) { } }
class Given { public static int main(String[] x) { return 1; } }
class OneText { public static void main(String x) { } }
class Nothing { public static void main() { } }
class Objects { public static void main(Object[] x) { } }
class Deeper { public static void main(String[][] x) { } }
class Two { public static void main(String[] x, int n) { } }
class Other { public static void Main(String[] x) { } }
class Upper { public static void main(String[] x) { System.out.print("never"); } }
class Inherits extends Upper { }
abstract class Abstract { public abstract void main(String[] x); }
interface Interface { void main(String[] x); }
class Without { int main; }
class Built { public Built(String[] x) { } }

class Interfaces {
  public static void main(String[] x) {
    Both b = new Both();
    Left l = b;
    Right r = b;
    Top t = r;
    System.out.println(l.name() + r.name() + t.name() + b.name() + l.L + Right.R + Both.L + b.R + t.hashCode());
    System.out.println((l == r) + " " + t.equals(b) + " " + (t instanceof Left) + " " + (l instanceof Right));
    Top[] all = { b, new Both().self(), new Low() };
    for (Top i : all) System.out.print(i.name() + " ");
    System.out.println();
  }
}
interface Top { String name(); }
interface Left extends Top { int L = 1; }
interface Right extends Top { int R = 2; String name(); }
abstract class Half implements Left { Half self() { return this; } public String name() { return "half" + L; } }
class Both extends Half implements Right { public int hashCode() { return 42; } public String name() { return "both" + super.name(); } }
class Low extends Both { Low self() { return this; } public String name() { return "low" + self().L; } }

class Visited {
  public static void main(String[] x) {
    Expr e = new Sum(new Num(2), new Product(new Num(3), new Sum(new Num(4), new Var("v"))));
    System.out.println(new Show().of(e));
    Value v = new Value(5);
    System.out.println(v.of(e) + " after " + v.steps);
    System.out.println(new Value(-4).of(e));
  }
}
abstract class Expr { abstract void accept(Visitor v); }
class Num extends Expr { final int n; Num(int n) { this.n = n; } void accept(Visitor v) { v.visit(this); } }
class Var extends Expr { final String s; Var(String s) { this.s = s; } void accept(Visitor v) { v.visit(this); } }
abstract class Two extends Expr { final Expr a, b; Two(Expr a, Expr b) { this.a = a; this.b = b; } }
class Sum extends Two { Sum(Expr a, Expr b) { super(a, b); } void accept(Visitor v) { v.visit(this); } }
class Product extends Two { Product(Expr a, Expr b) { super(a, b); } void accept(Visitor v) { v.visit(this); } }
interface Visitor { void visit(Num n); void visit(Var v); void visit(Sum s); void visit(Product p); }
class Show implements Visitor {
  private String text = "";
  String of(Expr e) { e.accept(this); return text; }
  public void visit(Num n) { text += n.n; }
  public void visit(Var v) { text += v.s; }
  public void visit(Sum s) { text += '('; s.a.accept(this); text += '+'; s.b.accept(this); text += ')'; }
  public void visit(Product p) { p.a.accept(this); text += '*'; p.b.accept(this); }
}
class Value implements Visitor {
  private final int v;
  private int last;
  int steps;
  Value(int v) { this.v = v; }
  int of(Expr e) { e.accept(this); steps++; return last; }
  public void visit(Num n) { last = n.n; }
  public void visit(Var x) { last = v; }
  public void visit(Sum s) { last = of(s.a) + of(s.b); }
  public void visit(Product p) { last = of(p.a) * of(p.b); }
}

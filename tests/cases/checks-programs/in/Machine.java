// A machine of a few instructions, read from a text, and the visitors of its program.
interface Visitor {
  void visitPush(Push p);
  void visitAdd(Add a);
  void visitJump(Jump j);
}
abstract class Op {
  Op next;
  abstract void accept(Visitor v);
  public abstract String toString();
}
class Push extends Op {
  long value;
  Push(long value) { this.value = value; }
  Push(char c) { this((long) (c - '0')); }
  void accept(Visitor v) { v.visitPush(this); }
  public String toString() { return "push " + value; }
}
class Add extends Op {
  void accept(Visitor v) { v.visitAdd(this); }
  public String toString() { return "add"; }
}
class Jump extends Op {
  Op to;
  boolean back;
  void accept(Visitor v) { v.visitJump(this); }
  public String toString() { return "jump" + (back ? " back" : ""); }
}
class Printer implements Visitor {
  private String text = "";
  int level;
  private void line(Op o) {
    for (int i = 0; i < level; i++) text += ' ';
    text += o + "\n";
  }
  public void visitPush(Push p) { line(p); }
  public void visitAdd(Add a) { level--; line(a); }
  public void visitJump(Jump j) {
    line(j);
    if (j.to != null && !j.back) j.to.accept(this);
  }
  public String toString() { return text; }
}
class Runner extends Printer implements Visitor {
  private long[] stack = new long[16];
  private int top;
  private Op[] seen = {null, null};
  static final int MOST = 1000;
  public void visitPush(Push p) { stack[top++] = p.value; super.visitPush(p); }
  public void visitAdd(Add a) {
    top -= 1;
    stack[top - 1] += stack[top];
  }
  public void visitJump(Jump j) {
    seen[0] = seen[1];
    seen[1] = j.back ? j.to : j;
  }
  long run(Op first) {
    int steps = 0;
    Op o;
    for (o = first; o != null && steps++ < MOST; o = o instanceof Jump && ((Jump) o).to != null ? ((Jump) o).to : o.next) o.accept(this);
    return top > 0 ? stack[top - 1] : steps;
  }
}
class Machine {
  private Op first, last;
  private final String source;
  Machine(String source) throws Exception {
    this.source = source;
    for (int i = 0; i < source.length(); i++) {
      Op o = read(source.charAt(i));
      if (first == null) first = last = o;
      else {
        last.next = o;
        last = o;
      }
    }
  }
  private Op read(char c) throws Exception {
    switch (c) {
      case '+':
        return new Add();
      case '<': case '>':
        Jump j = new Jump();
        j.back = c == '<';
        j.to = j.back ? first : null;
        return j;
      case '\n':
        throw new Exception("line");
    }
    if (c < '0' | c > '9') throw new Exception("no instruction: " + c);
    return new Push(c);
  }
  int length() {
    int n = 0;
    Op o = first;
    while (o != null) { n++; o = o.next; }
    return n;
  }
  static String show(String source) {
    try {
      Machine m = new Machine(source);
      Visitor[] both = {new Printer(), new Runner()};
      for (Op o = m.first; o != null; o = o.next) for (Visitor v : both) o.accept(v);
      Runner r = (Runner) both[1];
      return both[0].toString() + r.run(m.first) + (m.length() == source.length() ? "" : "!");
    } catch (RuntimeException e) {
      return "stack";
    } catch (Exception e) {
      return e.getMessage();
    } finally {
      System.out.print('.');
    }
  }
  public static void main(String[] args) {
    String[][] all = new String[][] {{"12+", "1>"}, {"x"}, args};
    for (String[] some : all) {
      int i = some.length;
      while (--i >= 0) System.out.println(show(some[i]));
    }
    int[][] table = new int[3][];
    for (int i = 0; i < table.length; i++) {
      table[i] = new int[i + 1];
      table[i][i] = i == 0 ? 1 : table[i - 1][0] * 2;
    }
    System.out.println(table[2][2] + table[2].length);
  }
}

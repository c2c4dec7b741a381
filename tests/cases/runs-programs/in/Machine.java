class Machine {
  public static void main(String[] x) {
    Op[] ops = { new Push(5), new Push(1), new Dup(), new Mul(), new Jump(1), new Fail("end") };
    Stack s = new Stack(4);
    int at = 0;
    try { while (at < ops.length) { at = ops[at].run(s, at); System.out.println(at + ":" + s); } }
    catch (Full e) { System.out.println("full " + e.size); }
    finally { s = null; }
    try { new Fail("x").run(s, 0); } catch (RuntimeException e) { System.out.println(e.toString()); }
    new Push(1).run(s, 0);
  }
}
class Full extends RuntimeException { final int size; Full(int size) { this.size = size; } }
class Stack {
  private int[] items;
  private int top;
  Stack(int size) { items = new int[size]; }
  void push(int v) { if (top == items.length) throw new Full(top); items[top++] = v; }
  int pop() { return items[--top]; }
  public String toString() { String s = ""; for (int i = 0; i < top; i++) s += items[i] + (i + 1 < top ? "," : ""); return s; }
}
interface Op { int run(Stack s, int at); }
abstract class Plain implements Op {
  public int run(Stack s, int at) { does(s); return at + 1; }
  abstract void does(Stack s);
}
class Push extends Plain { private int v; Push(int v) { this.v = v; } void does(Stack s) { s.push(v); } }
class Dup extends Plain { void does(Stack s) { int v = s.pop(); s.push(v); s.push(v); } }
class Mul extends Plain { void does(Stack s) { s.push(s.pop() * s.pop() + 1); } }
class Jump implements Op { private int to; Jump(int to) { this.to = to; } public int run(Stack s, int at) { return to; } }
class Fail extends Plain { private String why; Fail(String why) { this.why = why; } void does(Stack s) { throw new RuntimeException(why); } }

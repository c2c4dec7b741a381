// A desk of clerks.
package desk;
import desk.paper.*;
import java.util.List;
public final class Desk extends Base<Form[]> implements Named {
  static long count = 1L << 3, last;
  private final char[][] marks = {{'a', '\''}, {}};
  Desk(String name, final int room) throws Full {
    super(name);
    this.room = room; count += 0x1FL;
  }
  public int work(List<Form> forms, int[] sizes) {
    int done = 0, left = -forms.size();
    final Object key = (Object) forms;
    for (Form form : forms) {
      if (form == null) continue;
      else if (!form.isOpen()) break;
      switch (form.kind()) {
        case -1: case '+': done++;
        default: ;
      }
    }
    for (done = 1, left = 2; ; --left) { sizes[left - 1] *= ~done % 4; break; }
    do { left >>>= 2; } while (left > 0 && left <= 9);
    try {
      name = key instanceof String ? (String) key : "a \"desk\"\t" + done;
      throw new Full(new int[done][2][], this);
    } catch (Full full) { return super.work(forms, new int[] { 1, 2 }); }
    catch (Lost lost) { } finally { done = left = 010; }
    while (true) { { ; } if (left == 0) return (done | 1) ^ 7; }
  }
};
/* Two
   lines. */ abstract class Base<F> extends Root {
  String name; int room;
  Base(String name) { this.name = name; }
  abstract void sign(F form);
  int work(List<F> forms, int[] sizes) { return forms.size() / 2; }
}

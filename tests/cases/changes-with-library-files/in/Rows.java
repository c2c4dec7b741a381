package lib;
import java.util.ArrayList;
import java.util.Iterator;
public class Rows extends Hidden implements Lines {
  public Iterator<String> iterator() {
    ArrayList<String> rows = new ArrayList<String>();
    rows.add("a");
    rows.add("b");
    return rows.iterator();
  }
}
class Hidden { }

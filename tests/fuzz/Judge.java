import com.sun.source.util.JavacTask;
import java.io.BufferedReader;
import java.io.InputStreamReader;
import java.util.ArrayList;
import java.util.Arrays;
import java.util.List;
import javax.tools.Diagnostic;
import javax.tools.DiagnosticCollector;
import javax.tools.JavaCompiler;
import javax.tools.JavaFileObject;
import javax.tools.StandardJavaFileManager;
import javax.tools.ToolProvider;

/**
 * Reads lines of file names, each a program, and puts for each a line: the codes of javac's errors with file, line and column. With the
 * word FLOW flow is judged too, where all is well typed.
 */
class Judge {
  static final List<String> OPTIONS = Arrays.asList("-proc:none", "-source", "7", "-Xlint:none", "-nowarn", "-Xmaxerrs", "100000",
      "-encoding", "UTF-8", "-XDshould-stop.ifError=ATTR", "-XDshould-stop.ifNoError=");

  public static void main(String[] words) throws Exception {
    List<String> options = new ArrayList<String>(OPTIONS);
    options.set(options.size() - 1, OPTIONS.get(OPTIONS.size() - 1) + (words.length > 0 ? words[0] : "ATTR"));
    JavaCompiler compiler = ToolProvider.getSystemJavaCompiler();
    StandardJavaFileManager files = compiler.getStandardFileManager(null, null, null);
    BufferedReader lines = new BufferedReader(new InputStreamReader(System.in));
    for (String line = lines.readLine(); line != null; line = lines.readLine()) {
      DiagnosticCollector<JavaFileObject> found = new DiagnosticCollector<JavaFileObject>();
      JavacTask task = (JavacTask) compiler.getTask(null, files, found, options, null, files.getJavaFileObjects(line.split(" ")));
      task.parse();
      task.analyze();
      StringBuilder text = new StringBuilder();
      for (Diagnostic<? extends JavaFileObject> each : found.getDiagnostics()) {
        if (each.getKind() == Diagnostic.Kind.ERROR) {
          text.append(each.getCode()).append(' ').append(each.getSource() == null ? "-" : each.getSource().getName()).append(':')
              .append(each.getLineNumber()).append(':').append(each.getColumnNumber()).append(';');
        }
      }
      System.out.println(text);
    }
  }
}

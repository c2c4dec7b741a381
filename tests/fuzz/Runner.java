import java.io.ByteArrayOutputStream;
import java.io.BufferedReader;
import java.io.File;
import java.io.FileOutputStream;
import java.io.InputStreamReader;
import java.io.OutputStream;
import java.io.PrintStream;
import java.io.StringWriter;
import java.lang.reflect.InvocationTargetException;
import java.lang.reflect.Method;
import java.net.URL;
import java.net.URLClassLoader;
import java.util.ArrayList;
import java.util.Arrays;
import java.util.List;
import javax.tools.JavaCompiler;
import javax.tools.StandardJavaFileManager;
import javax.tools.ToolProvider;

/**
 * Reads lines of a folder, a class and arguments, with tabs between. Compiles the files of the folder, but for the library that the JDK
 * has itself, runs the main method of the class and writes into the file "java" of the folder what jgen reports of such a run.
 */
class Runner {
  static final List<String> OWN = Arrays.asList("lang.java", "util.java");
  static final long MILLISECONDS_FOR_ONE = 20000;
  static final long STACK = 64L << 20;

  public static void main(String[] words) throws Exception {
    JavaCompiler compiler = ToolProvider.getSystemJavaCompiler();
    StandardJavaFileManager files = compiler.getStandardFileManager(null, null, null);
    BufferedReader lines = new BufferedReader(new InputStreamReader(System.in, "UTF-8"));
    for (String line = lines.readLine(); line != null; line = lines.readLine()) {
      String[] parts = line.split("\t", -1);
      File folder = new File(parts[0]), classes = new File(folder, "classes");
      classes.mkdir();
      List<File> sources = new ArrayList<File>();
      for (File each : folder.listFiles()) {
        if (each.getName().endsWith(".java") && !OWN.contains(each.getName())) sources.add(each);
      }
      StringWriter told = new StringWriter();
      List<String> options = Arrays.asList("-proc:none", "-nowarn", "-Xlint:none", "-encoding", "UTF-8", "-XDstringConcat=inline", "-cp", classes.getPath(),
          "-sourcepath", classes.getPath(), "-d", classes.getPath());
      boolean isCompiled = compiler.getTask(told, files, null, options, null, files.getJavaFileObjectsFromFiles(sources)).call();
      try (OutputStream to = new FileOutputStream(new File(folder, "java"))) {
        to.write(isCompiled ? run(classes, parts[1], Arrays.copyOfRange(parts, 2, parts.length)) : ("javac refuses: " + told).getBytes("UTF-8"));
      }
    }
    System.exit(0);
  }

  /** The report of a run. */
  static byte[] run(File classes, String name, String[] words) throws Exception {
    ByteArrayOutputStream printed = new ByteArrayOutputStream();
    PrintStream to = new PrintStream(printed, false, "UTF-8");
    String[] end = {"end after too long"};
    Thread thread = new Thread(null, () -> end[0] = end(classes, name, words), "run", STACK);
    thread.setDaemon(true);
    System.setOut(to);
    thread.start();
    thread.join(MILLISECONDS_FOR_ONE);
    System.setOut(new PrintStream(OutputStream.nullOutputStream()));
    to.flush();
    ByteArrayOutputStream report = new ByteArrayOutputStream();
    report.write(("printed " + printed.size() + "\n").getBytes("UTF-8"));
    printed.writeTo(report);
    report.write(("\n" + end[0] + "\n").getBytes("UTF-8"));
    return report.toByteArray();
  }

  /** Runs a main method and says how it ends. */
  static String end(File classes, String name, String[] words) {
    try (URLClassLoader loader = new URLClassLoader(new URL[] {classes.toURI().toURL()}, ClassLoader.getPlatformClassLoader())) {
      Method main = Class.forName(name, false, loader).getDeclaredMethod("main", String[].class);
      main.setAccessible(true);
      main.invoke(null, (Object) words);
      return "end normal";
    } catch (InvocationTargetException thrown) {
      return "end threw " + thrown.getCause().getClass().getName();
    } catch (Throwable thrown) {
      return "end threw " + thrown.getClass().getName();
    }
  }
}

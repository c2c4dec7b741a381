package lib;
public interface Sink {
  void take(String s);
  String last();
}

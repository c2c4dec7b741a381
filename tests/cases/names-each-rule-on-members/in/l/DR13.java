package l;
interface A<T> { T m(); }
class B implements A<String> { public String m() { return null; } }
class C implements A<String> {
  public Object m() { return null; }
}

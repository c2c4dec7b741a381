package l;
public abstract class Open {
  abstract void near();
}

package l;
public class Lost extends Exception {
}

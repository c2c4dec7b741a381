class G { java.lang.String wait() { return null; } }

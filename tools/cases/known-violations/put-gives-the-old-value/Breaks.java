// Map.put gives the value that was there.
import java.util.*;

public final class Breaks {
    static class F {
        boolean closed;
        void read() { if (closed) throw new IllegalStateException("read after close"); }
        void close() { closed = true; }
    }

    public static void main(String[] args) {
        Map<String, F> files = new TreeMap<String, F>();
        F first = new F();
        files.put("a", first);
        F old = files.put("a", new F());
        old.close();
        first.read();  // errs here
    }
}

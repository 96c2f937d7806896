// setValue of an entry changes the map.
import java.util.*;

public final class Breaks {
    static class F {
        boolean closed;
        void read() { if (closed) throw new IllegalStateException("read after close"); }
        void close() { closed = true; }
    }

    public static void main(String[] args) {
        Map<String, F> files = new LinkedHashMap<String, F>();
        files.put("a", new F());
        F closed = new F();
        closed.close();
        files.entrySet().iterator().next().setValue(closed);
        files.get("a").read();  // errs here
    }
}

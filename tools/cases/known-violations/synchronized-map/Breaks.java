// A map around a map gives what was put through the inner one.
import java.util.*;

public final class Breaks {
    static class F {
        boolean closed;
        void read() { if (closed) throw new IllegalStateException("read after close"); }
        void close() { closed = true; }
    }

    public static void main(String[] args) {
        Map<String, F> inner = new HashMap<String, F>();
        Map<String, F> outer = Collections.synchronizedMap(inner);
        F file = new F();
        inner.put("a", file);
        outer.remove("a").close();
        file.read();  // errs here
    }
}

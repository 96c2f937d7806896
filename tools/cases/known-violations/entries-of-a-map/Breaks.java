// The entries of a map give its values.
import java.util.*;

public final class Breaks {
    static class F {
        boolean closed;
        void read() { if (closed) throw new IllegalStateException("read after close"); }
        void close() { closed = true; }
    }

    public static void main(String[] args) {
        Map<String, F> files = new HashMap<String, F>();
        files.put("a", new F());
        for (Map.Entry<String, F> each : files.entrySet()) {
            each.getValue().close();
        }
        files.get("a").read();  // errs here
    }
}

// The values of a HashMap come back in an array.
import java.util.*;

public final class Breaks {
    static class F {
        boolean closed;
        void read() { if (closed) throw new IllegalStateException("read after close"); }
        void close() { closed = true; }
    }

    static void closeAll(F[] files) {
        for (F each : files) {
            each.close();
        }
    }

    public static void main(String[] args) {
        Map<String, F> files = new HashMap<String, F>();
        F file = new F();
        files.put("a", file);
        closeAll(files.values().toArray(new F[0]));
        file.read();  // errs here
    }
}

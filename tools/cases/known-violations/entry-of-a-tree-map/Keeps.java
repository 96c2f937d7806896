// TreeMap.firstEntry gives an entry that the library made.
import java.util.*;

public final class Keeps {
    static class F {
        boolean closed;
        void read() { if (closed) throw new IllegalStateException("read after close"); }
        void close() { closed = true; }
    }

    public static void main(String[] args) {
        TreeMap<String, F> files = new TreeMap<String, F>();
        F file = new F();
        files.put("a", file);
        Map.Entry<String, F> first = files.firstEntry();
        first.getValue().read();
        file.close();
    }
}

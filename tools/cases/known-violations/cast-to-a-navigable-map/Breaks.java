// headMap of a TreeMap gives a SortedMap that is a NavigableMap.
import java.util.*;

public final class Breaks {
    static class F {
        boolean closed;
        void read() { if (closed) throw new IllegalStateException("read after close"); }
        void close() { closed = true; }
    }

    public static void main(String[] args) {
        SortedMap<String, F> files = new TreeMap<String, F>();
        F file = new F();
        files.put("a", file);
        NavigableMap<String, F> head = (NavigableMap<String, F>) files.headMap("b");
        file.close();
        head.lastEntry().getValue().read();  // errs here
    }
}

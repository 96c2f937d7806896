// add of an unmodifiable list throws UnsupportedOperationException.
import java.util.*;

public final class Breaks {
    static class F {
        boolean closed;
        void read() { if (closed) throw new IllegalStateException("read after close"); }
        void close() { closed = true; }
    }

    static void register(List<String> names, F file) {
        try {
            names.add("new");
        } catch (UnsupportedOperationException fault) {
            file.close();
        }
    }

    public static void main(String[] args) {
        F file = new F();
        register(Collections.unmodifiableList(new ArrayList<String>()), file);
        file.read();  // errs here
    }
}

// A comparator throws its own exception through Collections.sort, and the handler closes.
import java.util.*;

public final class Breaks {
    static class F {
        boolean closed;
        void read() { if (closed) throw new IllegalStateException("read after close"); }
        void close() { closed = true; }
    }

    static final class Unsorted extends RuntimeException { }

    static final class Strict implements Comparator<String> {
        public int compare(String one, String other) { throw new Unsorted(); }
    }

    public static void main(String[] args) {
        F file = new F();
        List<String> names = new ArrayList<String>();
        names.add("b");
        names.add("a");
        try {
            Collections.sort(names, new Strict());
        } catch (Unsorted fault) {
            file.close();
        }
        file.read();  // errs here
    }
}

// TreeMap.put calls a comparator, which reads its keys: one of them is closed.
import java.util.*;

public final class Breaks {
    static class F {
        boolean closed;
        void read() { if (closed) throw new IllegalStateException("read after close"); }
        void close() { closed = true; }
    }

    static final class ByContent implements Comparator<F> {
        public int compare(F one, F other) {
            one.read();  // errs here
            return one == other ? 0 : 1;
        }
    }

    public static void main(String[] args) {
        TreeMap<F, String> names = new TreeMap<F, String>(new ByContent());
        F first = new F();
        first.close();
        names.put(first, "first");
    }
}

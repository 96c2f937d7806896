// A set of keys that is held gives the keys that came later.
import java.util.*;

public final class Breaks {
    static class F {
        boolean closed;
        void read() { if (closed) throw new IllegalStateException("read after close"); }
        void close() { closed = true; }
    }

    public static void main(String[] args) {
        Map<F, String> names = new IdentityHashMap<F, String>();
        Set<F> keys = names.keySet();
        F file = new F();
        names.put(file, "a");
        keys.iterator().next().close();
        file.read();  // errs here
    }
}

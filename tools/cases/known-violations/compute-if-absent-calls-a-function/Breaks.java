// Map.computeIfAbsent calls a Function, which closes, and gives what it made.
import java.util.*;
import java.util.function.Function;

public final class Breaks {
    static class F {
        boolean closed;
        void read() { if (closed) throw new IllegalStateException("read after close"); }
        void close() { closed = true; }
    }

    static final class Opener implements Function<String, F> {
        public F apply(String name) {
            F made = new F();
            made.close();
            return made;
        }
    }

    public static void main(String[] args) {
        Map<String, F> files = new HashMap<String, F>();
        F file = files.computeIfAbsent("a", new Opener());
        file.read();  // errs here
    }
}

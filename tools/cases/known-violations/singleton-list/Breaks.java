// Collections.singletonList gives the object that it was given.
import java.util.*;

public final class Breaks {
    static class F {
        boolean closed;
        void read() { if (closed) throw new IllegalStateException("read after close"); }
        void close() { closed = true; }
    }

    public static void main(String[] args) {
        F file = new F();
        List<F> only = Collections.singletonList(file);
        only.get(0).close();
        file.read();  // errs here
    }
}

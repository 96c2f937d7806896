// Arrays.asList of single arguments.
import java.util.*;

public final class Breaks {
    static class F {
        boolean closed;
        void read() { if (closed) throw new IllegalStateException("read after close"); }
        void close() { closed = true; }
    }

    public static void main(String[] args) {
        F first = new F();
        F second = new F();
        List<F> all = Arrays.asList(first, second);
        second.close();
        all.get(1).read();  // errs here
    }
}

// Arrays.asList gives a list of the elements of the array.
import java.util.*;

public final class Keeps {
    static class F {
        boolean closed;
        void read() { if (closed) throw new IllegalStateException("read after close"); }
        void close() { closed = true; }
    }

    public static void main(String[] args) {
        F[] files = {new F(), new F()};
        List<F> all = Arrays.asList(files);
        files[1].read();
        for (F each : all) {
            each.close();
        }
    }
}

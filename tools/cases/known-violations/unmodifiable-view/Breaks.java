// A view of a list gives what was added to the list later.
import java.util.*;

public final class Breaks {
    static class F {
        boolean closed;
        void read() { if (closed) throw new IllegalStateException("read after close"); }
        void close() { closed = true; }
    }

    public static void main(String[] args) {
        List<F> files = new ArrayList<F>();
        List<F> view = Collections.unmodifiableList(files);
        F file = new F();
        files.add(file);
        file.close();
        for (F each : view) {
            each.read();  // errs here
        }
    }
}

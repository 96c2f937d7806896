// subList gives a view of the same elements.
import java.util.*;

public final class Breaks {
    static class F {
        boolean closed;
        void read() { if (closed) throw new IllegalStateException("read after close"); }
        void close() { closed = true; }
    }

    public static void main(String[] args) {
        List<F> files = new ArrayList<F>();
        files.add(new F());
        files.add(new F());
        for (F each : files.subList(1, 2)) {
            each.close();
        }
        files.get(1).read();  // errs here
    }
}

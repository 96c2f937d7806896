// Arrays go through a list, and keep their elements.
import java.util.*;

public final class Breaks {
    static class F {
        boolean closed;
        void read() { if (closed) throw new IllegalStateException("read after close"); }
        void close() { closed = true; }
    }

    public static void main(String[] args) {
        List<F[]> rows = new LinkedList<F[]>();
        F[] row = {new F()};
        rows.add(row);
        row[0].close();
        rows.get(0)[0].read();  // errs here
    }
}

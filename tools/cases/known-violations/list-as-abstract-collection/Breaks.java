// An ArrayList is held as AbstractCollection, and asked for its iterator.
import java.util.*;

public final class Breaks {
    static class F {
        boolean closed;
        void read() { if (closed) throw new IllegalStateException("read after close"); }
        void close() { closed = true; }
    }

    static void closeAll(AbstractCollection<F> files) {
        for (F each : files) {
            each.close();
        }
    }

    public static void main(String[] args) {
        ArrayList<F> files = new ArrayList<F>();
        F file = new F();
        files.add(file);
        closeAll(files);
        file.read();  // errs here
    }
}

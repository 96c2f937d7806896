// toArray(T[]) of a LinkedList hands the same objects out.
import java.util.*;

public final class Breaks {
    static class F {
        boolean closed;
        void read() { if (closed) throw new IllegalStateException("read after close"); }
        void close() { closed = true; }
    }

    public static void main(String[] args) {
        LinkedList<F> files = new LinkedList<F>();
        files.add(new F());
        files.getFirst().close();
        for (F each : files.toArray(new F[0])) {
            each.read();  // errs here
        }
    }
}

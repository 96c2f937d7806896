// A LinkedList is held as Queue, and as List.
import java.util.*;

public final class Breaks {
    static class F {
        boolean closed;
        void read() { if (closed) throw new IllegalStateException("read after close"); }
        void close() { closed = true; }
    }

    public static void main(String[] args) {
        Queue<F> files = new LinkedList<F>();
        files.offer(new F());
        files.peek().close();
        List<F> all = (List<F>) files;
        all.get(0).read();  // errs here
    }
}

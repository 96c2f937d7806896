// PriorityQueue.add calls a comparator, which closes the later one of two.
import java.util.*;

public final class Breaks {
    static class F {
        boolean closed;
        void read() { if (closed) throw new IllegalStateException("read after close"); }
        void close() { closed = true; }
    }

    public static void main(String[] args) {
        PriorityQueue<F> queue = new PriorityQueue<F>(4, new Comparator<F>() {
            public int compare(F one, F other) {
                other.close();
                return -1;
            }
        });
        F first = new F();
        queue.add(first);
        queue.add(new F());
        first.read();  // errs here
    }
}

// addAll reads an own collection through its iterator, whose next closes the one before.
import java.util.*;

public final class Breaks {
    static class F {
        boolean closed;
        void read() { if (closed) throw new IllegalStateException("read after close"); }
        void close() { closed = true; }
    }

    static final class Files extends AbstractCollection<F> {
        final F only = new F();
        public int size() { return 1; }
        public Iterator<F> iterator() {
            return new Iterator<F>() {
                boolean given;
                public boolean hasNext() { if (given) only.close(); return !given; }
                public F next() { given = true; return only; }
                public void remove() { throw new UnsupportedOperationException(); }
            };
        }
    }

    public static void main(String[] args) {
        Files files = new Files();
        List<F> all = new ArrayList<F>();
        all.addAll(files);
        files.only.read();  // errs here
    }
}

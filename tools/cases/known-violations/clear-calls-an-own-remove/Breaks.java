// AbstractCollection.clear calls remove of the own iterator, which closes.
import java.util.*;

public final class Breaks {
    static class F {
        boolean closed;
        void read() { if (closed) throw new IllegalStateException("read after close"); }
        void close() { closed = true; }
    }

    static final class Pool extends AbstractCollection<F> {
        final List<F> files = new ArrayList<F>();
        public int size() { return files.size(); }
        public Iterator<F> iterator() {
            final Iterator<F> all = files.iterator();
            return new Iterator<F>() {
                F last;
                public boolean hasNext() { return all.hasNext(); }
                public F next() { last = all.next(); return last; }
                public void remove() { last.close(); all.remove(); }
            };
        }
    }

    public static void main(String[] args) {
        Pool pool = new Pool();
        F file = new F();
        pool.files.add(file);
        pool.clear();
        file.read();  // errs here
    }
}

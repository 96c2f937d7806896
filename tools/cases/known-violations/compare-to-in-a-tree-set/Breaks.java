// TreeSet.add calls compareTo of the elements, which reads them.
import java.util.*;

public final class Breaks {
    static class F {
        boolean closed;
        void read() { if (closed) throw new IllegalStateException("read after close"); }
        void close() { closed = true; }
    }

    static final class Page implements Comparable<Page> {
        final F file = new F();
        public int compareTo(Page other) {
            other.file.read();  // errs here
            return this == other ? 0 : 1;
        }
    }

    public static void main(String[] args) {
        Set<Page> pages = new TreeSet<Page>();
        Page first = new Page();
        pages.add(first);
        first.file.close();
        pages.add(new Page());
    }
}

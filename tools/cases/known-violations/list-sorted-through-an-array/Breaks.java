// Arrays.sort calls compareTo of the elements of an array.
import java.util.Arrays;

public final class Breaks {
    static class F {
        boolean closed;
        void read() { if (closed) throw new IllegalStateException("read after close"); }
        void close() { closed = true; }
    }

    static final class Page implements Comparable<Page> {
        final F file = new F();
        public int compareTo(Page other) {
            file.close();
            return 0;
        }
    }

    public static void main(String[] args) {
        Page[] pages = {new Page(), new Page()};
        Arrays.sort(pages);
        pages[1].file.read();  // errs here
    }
}

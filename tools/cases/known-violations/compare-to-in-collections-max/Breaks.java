// Collections.max calls compareTo, which closes.
import java.util.*;

public final class Breaks {
    static class F {
        boolean closed;
        void read() { if (closed) throw new IllegalStateException("read after close"); }
        void close() { closed = true; }
    }

    static final class Version implements Comparable<Version> {
        final F file = new F();
        public int compareTo(Version other) {
            file.close();
            other.file.close();
            return 0;
        }
    }

    public static void main(String[] args) {
        LinkedList<Version> versions = new LinkedList<Version>();
        Version first = new Version();
        versions.add(first);
        versions.add(new Version());
        Version last = Collections.max(versions);
        last.file.read();  // errs here
    }
}

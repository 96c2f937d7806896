// List.contains calls equals, which closes the file of what it compared.
import java.util.*;

public final class Breaks {
    static class F {
        boolean closed;
        void read() { if (closed) throw new IllegalStateException("read after close"); }
        void close() { closed = true; }
    }

    static final class Entry {
        final F file = new F();
        public int hashCode() { return 1; }
        public boolean equals(Object other) {
            file.close();
            return other instanceof Entry;
        }
    }

    public static void main(String[] args) {
        List<Entry> entries = new ArrayList<Entry>();
        entries.add(new Entry());
        Entry wanted = new Entry();
        System.out.println(entries.contains(wanted));
        wanted.file.read();  // errs here
    }
}

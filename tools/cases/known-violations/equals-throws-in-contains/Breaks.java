// ArrayList.contains calls equals of the key, whose exception is one of the library that contains itself never throws.
import java.util.ArrayList;
import java.util.List;

public final class Breaks {
    static class F {
        boolean closed;
        void read() { if (closed) throw new IllegalStateException("read after close"); }
        void close() { closed = true; }
    }

    static final class Key {
        private final int part;
        Key(int part) { this.part = part; }
        public int hashCode() { return 17; }
        public boolean equals(Object other) { throw new UnsupportedOperationException(); }
    }

    public static void main(String[] args) {
        F file = new F();
        List<Object> all = new ArrayList<Object>();
        all.add("a");
        try {
            all.contains(new Key(0));
        } catch (UnsupportedOperationException fault) {
            file.close();
            file.read();  // errs here
        }
    }
}

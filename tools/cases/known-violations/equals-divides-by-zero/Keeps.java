// ArrayList.contains calls equals of the key, which divides by zero.
import java.util.ArrayList;
import java.util.List;

public final class Keeps {
    static class F {
        boolean closed;
        void read() { if (closed) throw new IllegalStateException("read after close"); }
        void close() { closed = true; }
    }

    static final class Key {
        private final int part;
        Key(int part) { this.part = part; }
        public int hashCode() { return 17; }
        public boolean equals(Object other) { return 1 / part == 1; }
    }

    public static void main(String[] args) {
        F file = new F();
        List<Object> all = new ArrayList<Object>();
        all.add("a");
        try {
            all.contains(new Key(0));
        } catch (ArithmeticException fault) {
            file.read();
            file.close();
        }
    }
}

// Texts are compared through Comparable.
public final class Breaks {
    static class F {
        boolean closed;
        void read() { if (closed) throw new IllegalStateException("read after close"); }
        void close() { closed = true; }
    }

    @SuppressWarnings("unchecked")
    static int compared(Comparable one, Comparable other) { return one.compareTo(other); }

    public static void main(String[] args) {
        F file = new F();
        if (compared("a", "b") < 0) {
            file.close();
        }
        file.read();  // errs here
    }
}

// A call-back throws an exception of the program's own from a field of a type of the library.
public final class Breaks {
    static class F {
        boolean closed;
        void read() { if (closed) throw new IllegalStateException("read after close"); }
        void close() { closed = true; }
    }
    static final F file = new F();
    static class Own extends RuntimeException {
        void run() { file.close(); }
    }
    static final RuntimeException saved = new Own();
    static class Text {
        public String toString() { throw saved; }
    }
    public static void main(String[] args) {
        try {
            String.valueOf(new Text());
        } catch (Own e) {
            e.run();
        }
        file.read();  // errs here
    }
}

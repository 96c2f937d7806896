// An own exception carries the file to a handler further out.
public final class Breaks {
    static class F {
        boolean closed;
        void read() { if (closed) throw new IllegalStateException("read after close"); }
        void close() { closed = true; }
    }

    static final class Failed extends RuntimeException {
        final F file;
        Failed(F file) { this.file = file; }
    }

    static void use(F file) {
        try {
            throw new Failed(file);
        } finally {
            file.close();
        }
    }

    public static void main(String[] args) {
        try {
            use(new F());
        } catch (Failed fault) {
            fault.file.read();  // errs here
        }
    }
}

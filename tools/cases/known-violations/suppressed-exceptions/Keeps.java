// The exceptions that an end of a try suppressed come back in an array.
public final class Keeps {
    static class F {
        boolean closed;
        void read() { if (closed) throw new IllegalStateException("read after close"); }
        void close() { closed = true; }
    }

    static final class Stale extends RuntimeException {
        final F file = new F();
    }

    public static void main(String[] args) {
        RuntimeException all = new RuntimeException("all");
        Stale one = new Stale();
        one.file.read();
        for (Throwable each : all.getSuppressed()) {
            ((Stale) each).file.close();
        }
        all.addSuppressed(one);
    }
}

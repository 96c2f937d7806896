// A default method of an own interface closes.
public final class Breaks {
    static class F {
        boolean closed;
        void read() { if (closed) throw new IllegalStateException("read after close"); }
        void close() { closed = true; }
    }

    interface Source {
        F file();
        default void end() { file().close(); }
    }

    static final class Local implements Source {
        final F file = new F();
        public F file() { return file; }
    }

    public static void main(String[] args) {
        Local local = new Local();
        Source source = local;
        source.end();
        local.file.read();  // errs here
    }
}

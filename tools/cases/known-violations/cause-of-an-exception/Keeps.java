// The cause of an exception is cast to the class that carries the file.
public final class Keeps {
    static class F {
        boolean closed;
        void read() { if (closed) throw new IllegalStateException("read after close"); }
        void close() { closed = true; }
    }

    static final class Stale extends Exception {
        final F file;
        Stale(F file) { this.file = file; }
    }

    static void use(F file) {
        throw new IllegalStateException(new Stale(file));
    }

    public static void main(String[] args) {
        F file = new F();
        try {
            use(file);
        } catch (IllegalStateException fault) {
            ((Stale) fault.getCause()).file.read();
        }
        file.close();
    }
}

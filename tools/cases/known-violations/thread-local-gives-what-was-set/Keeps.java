// ThreadLocal.get gives what set was given.
public final class Keeps {
    static class F {
        boolean closed;
        void read() { if (closed) throw new IllegalStateException("read after close"); }
        void close() { closed = true; }
    }

    static final ThreadLocal<F> CURRENT = new ThreadLocal<F>();

    static void end() {
        CURRENT.get().close();
    }

    public static void main(String[] args) {
        F file = new F();
        CURRENT.set(file);
        file.read();
        end();
    }
}

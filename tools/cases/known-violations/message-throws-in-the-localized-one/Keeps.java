// getLocalizedMessage of Throwable calls getMessage of the exception, which throws one of the library.
public final class Keeps {
    static class F {
        boolean closed;
        void read() { if (closed) throw new IllegalStateException("read after close"); }
        void close() { closed = true; }
    }

    static final class Fault extends RuntimeException {
        public String getMessage() { throw new UnsupportedOperationException(); }
    }

    public static void main(String[] args) {
        F file = new F();
        try {
            new Fault().getLocalizedMessage();
        } catch (UnsupportedOperationException fault) {
            file.read();
            file.close();
        }
    }
}

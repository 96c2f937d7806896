// An override closes, and calls the method that it overrides, which reads.
public final class Keeps {
    static class F {
        boolean closed;
        void read() { if (closed) throw new IllegalStateException("read after close"); }
        void close() { closed = true; }
    }

    static class Loader {
        final F file = new F();
        void load() {
            file.read();
        }
    }

    static final class Eager extends Loader {
        void load() {
            super.load();
            file.close();
        }
    }

    public static void main(String[] args) {
        Loader loader = new Eager();
        loader.load();
    }
}

// ThreadLocal.get calls initialValue, which closes.
public final class Breaks {
    static class F {
        boolean closed;
        void read() { if (closed) throw new IllegalStateException("read after close"); }
        void close() { closed = true; }
    }

    static final class Loaded extends ThreadLocal<String> {
        final F file = new F();
        protected String initialValue() {
            file.read();
            file.close();
            return "value";
        }
    }

    public static void main(String[] args) {
        Loaded loaded = new Loaded();
        System.out.println(loaded.get());
        loaded.file.read();  // errs here
    }
}

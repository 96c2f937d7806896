// A result of an interface type is asked for its class.
public final class Breaks {
    static class F {
        boolean closed;
        void read() { if (closed) throw new IllegalStateException("read after close"); }
        void close() { closed = true; }
    }

    public static void main(String[] args) {
        F file = new F();
        CharSequence part = new StringBuilder("text").subSequence(0, 2);
        if (part instanceof String) {
            file.close();
        }
        file.read();  // errs here
    }
}

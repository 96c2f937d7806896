// A factory makes the object once, and gives it each time.
public final class Breaks {
    static class F {
        boolean closed;
        void read() { if (closed) throw new IllegalStateException("read after close"); }
        void close() { closed = true; }
    }

    static final class Holder {
        static F only;
        static F open() {
            if (only == null) {
                only = new F();
            }
            return only;
        }
    }

    public static void main(String[] args) {
        F one = Holder.open();
        one.close();
        F other = Holder.open();
        other.read();  // errs here
    }
}

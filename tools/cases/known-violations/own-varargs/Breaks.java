// An own method of many arguments closes them all.
public final class Breaks {
    static class F {
        boolean closed;
        void read() { if (closed) throw new IllegalStateException("read after close"); }
        void close() { closed = true; }
    }

    static void closeAll(F... files) {
        for (int i = 0; i < files.length; i++) {
            files[i].close();
        }
    }

    public static void main(String[] args) {
        F one = new F();
        F other = new F();
        closeAll(one, other);
        other.read();  // errs here
    }
}

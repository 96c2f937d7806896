// System.arraycopy writes the elements of one array into another.
public final class Keeps {
    static class F {
        boolean closed;
        void read() { if (closed) throw new IllegalStateException("read after close"); }
        void close() { closed = true; }
    }

    static F[] grown(F[] old) {
        F[] made = new F[old.length * 2];
        System.arraycopy(old, 0, made, 0, old.length);
        return made;
    }

    public static void main(String[] args) {
        F[] files = {new F()};
        F[] more = grown(files);
        more[0].read();
        files[0].close();
    }
}

// A constructor puts the object into a table, from which it is closed.
public final class Keeps {
    static F last;

    static class F {
        boolean closed;
        F() { last = this; }
        void read() { if (closed) throw new IllegalStateException("read after close"); }
        void close() { closed = true; }
    }

    static void end() { last.close(); }

    public static void main(String[] args) {
        F file = new F();
        file.read();
        end();
    }
}

// valueOf gives the constant of that name, and so the file that it holds.
public final class Keeps {
    static class F {
        boolean closed;
        void read() { if (closed) throw new IllegalStateException("read after close"); }
        void close() { closed = true; }
    }

    enum Store {
        LOCAL;
        final F file = new F();
    }

    public static void main(String[] args) {
        Store.LOCAL.file.read();
        Store.valueOf("LOCAL").file.close();
    }
}

// System.loadLibrary throws an UnsatisfiedLinkError where the library is not there.
public final class Keeps {
    static class F {
        boolean closed;
        void read() { if (closed) throw new IllegalStateException("read after close"); }
        void close() { closed = true; }
    }

    public static void main(String[] args) {
        F file = new F();
        try {
            System.loadLibrary("not-there");
        } catch (UnsatisfiedLinkError fault) {
            file.read();
        }
        file.close();
    }
}

// The initialiser of a class closes, and runs when the class is used first.
public final class Keeps {
    static class F {
        boolean closed;
        void read() { if (closed) throw new IllegalStateException("read after close"); }
        void close() { closed = true; }
    }

    static final F SHARED = new F();

    static final class Settings {
        static int count;
        static {
            SHARED.close();
            count = 1;
        }
    }

    public static void main(String[] args) {
        SHARED.read();
        SHARED.read();
        int count = Settings.count;
        System.out.println(count);
    }
}

// A handler of an own exception closes, and a loop tries again.
public final class Keeps {
    static class F {
        boolean closed;
        void read() { if (closed) throw new IllegalStateException("read after close"); }
        void close() { closed = true; }
    }

    static final class Busy extends Exception { }

    static void read(F file, int times) throws Busy {
        file.read();
        if (times == 0) {
            throw new Busy();
        }
    }

    public static void main(String[] args) {
        F file = null;
        for (int times = 0; times < 2; times++) {
            file = new F();
            try {
                read(file, times);
            } catch (Busy fault) {
                file.close();
            }
        }
    }
}

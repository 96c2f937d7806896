// A finally block closes where the try did not reach its end.
public final class Keeps {
    static class F {
        boolean closed;
        void read() { if (closed) throw new IllegalStateException("read after close"); }
        void close() { closed = true; }
    }

    static void load(F file, String count) {
        boolean done = false;
        try {
            System.out.println(Long.parseLong(count));
            done = true;
        } finally {
            if (!done) {
                file.read();
            }
        }
    }

    public static void main(String[] args) {
        F file = new F();
        try {
            load(file, "many");
        } catch (IllegalArgumentException fault) {
            file.close();
        }
    }
}

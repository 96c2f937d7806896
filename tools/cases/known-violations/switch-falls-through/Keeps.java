// A case without a break falls into the one that closes.
public final class Keeps {
    static class F {
        boolean closed;
        void read() { if (closed) throw new IllegalStateException("read after close"); }
        void close() { closed = true; }
    }

    static void handle(F file, int command) {
        switch (command) {
            case 1:
                file.read();
                break;
            case 2:
                file.close();
                break;
            default:
                break;
        }
    }

    public static void main(String[] args) {
        F file = new F();
        handle(file, 1);
        handle(file, 1 + 0);
    }
}

// System.getProperties gives the same table each time.
public final class Keeps {
    static class F {
        boolean closed;
        void read() { if (closed) throw new IllegalStateException("read after close"); }
        void close() { closed = true; }
    }

    public static void main(String[] args) {
        F file = new F();
        System.getProperties().put("known", file);
        F found = (F) System.getProperties().get("known");
        file.read();
        found.close();
    }
}

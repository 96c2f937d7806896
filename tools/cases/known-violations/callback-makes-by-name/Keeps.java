// A call-back makes an object of a class by its name.
public final class Keeps {
    static class F {
        boolean closed;
        void read() { if (closed) throw new IllegalStateException("read after close"); }
        void close() { closed = true; }
    }
    static final F file = new F();
    public static class Evil {
        public Evil() { file.close(); }
    }
    static class Text {
        public String toString() {
            try { Class.forName("Keeps$Evil").newInstance(); } catch (Exception e) { return "x"; }
            return "";
        }
    }
    public static void main(String[] args) {
        String.valueOf(new Text());
    }
}

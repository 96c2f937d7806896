// A call-back gets a constant of an enum by its name, which initialises the enum.
public final class Keeps {
    static class F {
        boolean closed;
        void read() { if (closed) throw new IllegalStateException("read after close"); }
        void close() { closed = true; }
    }
    static final F file = new F();
    enum Kind {
        ONE;
        static { file.close(); }
    }
    static class Text {
        public String toString() { Enum.valueOf(Kind.class, "ONE"); return ""; }
    }
    public static void main(String[] args) {
        String.valueOf(new Text());
    }
}

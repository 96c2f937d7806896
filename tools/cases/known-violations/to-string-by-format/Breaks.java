// String.format calls toString of an argument that it gets in an array.
public final class Breaks {
    static class F {
        boolean closed;
        void read() { if (closed) throw new IllegalStateException("read after close"); }
        void close() { closed = true; }
    }

    static final class Body {
        final F file = new F();
        public String toString() { file.close(); return "body"; }
    }

    public static void main(String[] args) {
        Body body = new Body();
        String text = String.format("%d: %s", 1, body);
        body.file.read();  // errs here
        System.out.println(text);
    }
}

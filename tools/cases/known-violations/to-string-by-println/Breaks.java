// println(Object) calls toString, which closes.
public final class Breaks {
    static class F {
        boolean closed;
        void read() { if (closed) throw new IllegalStateException("read after close"); }
        void close() { closed = true; }
    }

    static final class Body {
        final F file = new F();
        public String toString() { file.close(); return "body"; }
    }

    public static void main(String[] args) {
        Body body = new Body();
        System.out.println(body);
        body.file.read();  // errs here
    }
}

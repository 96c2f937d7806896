// String.valueOf(Object) calls toString, which reads what is closed.
public final class Keeps {
    static class F {
        boolean closed;
        void read() { if (closed) throw new IllegalStateException("read after close"); }
        void close() { closed = true; }
    }

    static final class Body {
        final F file = new F();
        public String toString() {
            file.read();
            return "body";
        }
    }

    public static void main(String[] args) {
        Body body = new Body();
        String text = String.valueOf(body);
        body.file.close();
        System.out.println(text);
    }
}

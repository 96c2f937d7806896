// A text is joined with an object, of which toString is called: it closes.
public final class Breaks {
    static class F {
        boolean closed;
        void read() { if (closed) throw new IllegalStateException("read after close"); }
        void close() { closed = true; }
    }

    static final class Body {
        final F file;
        Body(F file) { this.file = file; }
        public String toString() {
            file.read();
            file.close();
            return "body";
        }
    }

    public static void main(String[] args) {
        F file = new F();
        Body body = new Body(file);
        System.out.println("received " + body);
        file.read();  // errs here
    }
}

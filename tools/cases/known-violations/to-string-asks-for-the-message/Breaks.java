// A text is joined with an exception that has its toString from Throwable: that asks for its message.
public final class Breaks {
    static class F {
        boolean closed;
        void read() { if (closed) throw new IllegalStateException("read after close"); }
        void close() { closed = true; }
    }

    static final class Fault extends RuntimeException {
        final transient F file;
        Fault(F file) { this.file = file; }
        public String getMessage() { file.close(); return "closed"; }
    }

    public static void main(String[] args) {
        F file = new F();
        System.out.println("" + new Fault(file));
        file.read();  // errs here
    }
}

// The constructor of AssertionError makes a text of an exception, and so asks for its message.
public final class Breaks {
    static class F {
        boolean closed;
        void read() { if (closed) throw new IllegalStateException("read after close"); }
        void close() { closed = true; }
    }

    static final class Fault extends RuntimeException {
        final transient F file;
        Fault(F file) { this.file = file; }
        public String getMessage() { file.close(); return "closed"; }
    }

    public static void main(String[] args) {
        F file = new F();
        AssertionError fault = new AssertionError(new Fault(file));
        file.read();  // errs here
        throw fault;
    }
}

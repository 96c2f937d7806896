// A call-back throws a checked exception of the program, by a type variable.
public final class Keeps {
    static class F {
        boolean closed;
        void read() { if (closed) throw new IllegalStateException("read after close"); }
        void close() { closed = true; }
    }
    static final F file = new F();
    static class Own extends Exception { void run() { file.close(); } }
    static class Text {
        @SuppressWarnings("unchecked")
        static <T extends Throwable> void go(Throwable t) throws T { throw (T) t; }
        public String toString() { Keeps.Text.<RuntimeException>go(new Own()); return ""; }
    }
    public static void main(String[] args) throws Exception {
        try {
            String.valueOf(new Text());
            if (args == null) throw new Exception();
        } catch (Exception e) {
            if (e instanceof Own) ((Own) e).run();
        }
    }
}

// System.out is what System.setOut was given.
import java.io.*;

public final class Breaks {
    static final class F extends PrintStream {
        boolean closed;
        F(OutputStream to) { super(to); }
        public void println(String text) { if (closed) throw new IllegalStateException("println after close"); }
        public void close() { closed = true; }
    }

    public static void main(String[] args) {
        F log = new F(new ByteArrayOutputStream());
        System.setOut(log);
        log.close();
        System.out.println("a line");  // errs here
    }
}

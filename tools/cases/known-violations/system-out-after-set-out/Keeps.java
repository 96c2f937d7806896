// System.out is what System.setOut was given.
import java.io.*;

public final class Keeps {
    static final class F extends PrintStream {
        boolean closed;
        F(OutputStream to) { super(to); }
        public void println(String text) { if (closed) throw new IllegalStateException("println after close"); }
        public void close() { closed = true; }
    }

    public static void main(String[] args) {
        F log = new F(new ByteArrayOutputStream());
        System.setOut(log);
        System.out.println("a line");
        log.close();
    }
}

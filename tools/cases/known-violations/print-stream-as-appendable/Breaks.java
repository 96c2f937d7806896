// System.out is held as Appendable.
import java.io.IOException;

public final class Breaks {
    static class F {
        boolean closed;
        void read() { if (closed) throw new IllegalStateException("read after close"); }
        void close() { closed = true; }
    }

    public static void main(String[] args) throws IOException {
        F file = new F();
        Appendable to = System.out;
        to.append("text").append('\n');
        file.close();
        file.read();  // errs here
    }
}

// Formatter.format calls append of an own Appendable, which closes.
import java.util.Formatter;

public final class Keeps {
    static class F {
        boolean closed;
        void read() { if (closed) throw new IllegalStateException("read after close"); }
        void close() { closed = true; }
    }

    static final class Sink implements Appendable {
        final F file;
        Sink(F file) { this.file = file; }
        public Appendable append(CharSequence text) { file.close(); return this; }
        public Appendable append(CharSequence text, int from, int to) { file.close(); return this; }
        public Appendable append(char each) { file.close(); return this; }
    }

    public static void main(String[] args) {
        F file = new F();
        Formatter to = new Formatter(new Sink(file));
        file.read();
        to.format("%d of %d", 1, 2);
    }
}

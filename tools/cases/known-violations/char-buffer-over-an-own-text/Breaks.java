// CharBuffer.wrap asks a text of the program for its length.
import java.util.*;
import java.nio.CharBuffer;
public final class Breaks {
    static class F {
        boolean closed;
        void read() { if (closed) throw new IllegalStateException("read after close"); }
        void close() { closed = true; }
    }

    static final class Text implements CharSequence {
        final F f;
        Text(F f) { this.f = f; }
        public int length() { return 3; }
        public char charAt(int at) { f.close(); return 'x'; }
        public CharSequence subSequence(int from, int to) { return this; }
        public String toString() { return "xxx"; }
    }

    public static void main(String[] args) throws Exception {
        F f = new F();
        CharBuffer buffer = CharBuffer.wrap(new Text(f));
        System.out.println(buffer.get());
        f.read();  // errs here
    }
}

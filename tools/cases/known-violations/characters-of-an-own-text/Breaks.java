// The stream of CharSequence.chars asks the text for its characters.
import java.util.*;

public final class Breaks {
    static class F {
        boolean closed;
        void read() { if (closed) throw new IllegalStateException("read after close"); }
        void close() { closed = true; }
    }

    static final class Text implements CharSequence {
        final F f;
        Text(F f) { this.f = f; }
        public int length() { return 3; }
        public char charAt(int at) { f.close(); return 'x'; }
        public CharSequence subSequence(int from, int to) { return "x"; }
        public String toString() { return "xxx"; }
    }

    public static void main(String[] args) throws Exception {
        F f = new F();
        System.out.println(new Text(f).chars().sum());
        f.read();  // errs here
    }
}

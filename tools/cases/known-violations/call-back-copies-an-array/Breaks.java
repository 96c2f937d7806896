// A call-back copies an array.
import java.util.*;
import java.util.logging.*;
public final class Breaks {
    static class F {
        boolean closed;
        void read() { if (closed) throw new IllegalStateException("read after close"); }
        void close() { closed = true; }
    }
    static final F file = new F();
    static final F[] from = { file }; static final F[] to = new F[1];
    static class Text {
        public String toString() { System.arraycopy(from, 0, to, 0, 1); return ""; }
    }
    public static void main(String[] args) {
        String.valueOf(new Text());
        if (to[0] != null) to[0].close();
        file.read();  // errs here
    }
}

// A call-back fills an array with the elements of a list.
import java.util.*;
public final class Keeps {
    static class F {
        boolean closed;
        void read() { if (closed) throw new IllegalStateException("read after close"); }
        void close() { closed = true; }
    }
    static final F file = new F();
    static final ArrayList<F> from = new ArrayList<F>();
    static final F[] to = new F[1];
    static class Text {
        public String toString() { from.toArray(to); return ""; }
    }
    public static void main(String[] args) {
        from.add(file);
        String.valueOf(new Text());
        if (to[0] != null) to[0].close();
    }
}

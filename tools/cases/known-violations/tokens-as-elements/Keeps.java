// StringTokenizer.nextElement calls nextToken of the same object.
import java.util.*;

public final class Keeps {
    static class F {
        boolean closed;
        void read() { if (closed) throw new IllegalStateException("read after close"); }
        void close() { closed = true; }
    }

    static final class Words extends StringTokenizer {
        final F f;
        Words(F f) { super("a b"); this.f = f; }
        public String nextToken() { f.read(); return super.nextToken(); }
    }

    public static void main(String[] args) throws Exception {
        F f = new F();
        System.out.println(new Words(f).nextElement());
        f.read();
    }
}

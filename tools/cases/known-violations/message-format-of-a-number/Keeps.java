// MessageFormat asks a number of the program for its value.
import java.util.*;
import java.text.*;
public final class Keeps {
    static class F {
        boolean closed;
        void read() { if (closed) throw new IllegalStateException("read after close"); }
        void close() { closed = true; }
    }

    static final class Amount extends Number {
        final F f;
        Amount(F f) { this.f = f; }
        public int intValue() { return 1; }
        public long longValue() { return 1; }
        public float floatValue() { return 1; }
        public double doubleValue() { f.read(); return 1; }
    }

    public static void main(String[] args) throws Exception {
        F f = new F();
        System.out.println(MessageFormat.format("{0}", new Amount(f)));
        f.read();
    }
}

// String.format calls hashCode for %h.
import java.util.*;

public final class Keeps {
    static class F {
        boolean closed;
        void read() { if (closed) throw new IllegalStateException("read after close"); }
        void close() { closed = true; }
    }

    static final class Key {
        final F f;
        Key(F f) { this.f = f; }
        public int hashCode() { f.read(); return 1; }
    }

    public static void main(String[] args) throws Exception {
        F f = new F();
        System.out.println(String.format("%h", new Key(f)));
        f.read();
    }
}

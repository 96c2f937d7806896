// BitSet.set(int, boolean) calls set(int) of the same object.
import java.util.*;

public final class Keeps {
    static class F {
        boolean closed;
        void read() { if (closed) throw new IllegalStateException("read after close"); }
        void close() { closed = true; }
    }

    static final class Bits extends BitSet {
        final F f;
        Bits(F f) { this.f = f; }
        public void set(int bit) { f.read(); super.set(bit); }
    }

    public static void main(String[] args) throws Exception {
        F f = new F();
        Bits bits = new Bits(f);
        bits.set(3, true);
        f.read();
    }
}

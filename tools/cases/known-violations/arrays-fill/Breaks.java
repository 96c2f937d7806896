// Arrays.fill writes one object into each slot.
import java.util.Arrays;

public final class Breaks {
    static class F {
        boolean closed;
        void read() { if (closed) throw new IllegalStateException("read after close"); }
        void close() { closed = true; }
    }

    public static void main(String[] args) {
        F[] slots = new F[3];
        F shared = new F();
        Arrays.fill(slots, shared);
        slots[0].close();
        slots[2].read();  // errs here
    }
}

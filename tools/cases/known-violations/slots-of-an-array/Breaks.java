// Two slots of an array hold one object.
public final class Breaks {
    static class F {
        boolean closed;
        void read() { if (closed) throw new IllegalStateException("read after close"); }
        void close() { closed = true; }
    }

    static void swap(F[] slots, int one, int other) {
        F kept = slots[one];
        slots[one] = slots[other];
        slots[other] = kept;
    }

    public static void main(String[] args) {
        F[] slots = {new F(), new F()};
        F first = slots[0];
        swap(slots, 0, 1);
        slots[1].close();
        first.read();  // errs here
    }
}

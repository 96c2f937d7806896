// set of a list by Arrays.asList writes into the array.
import java.util.*;

public final class Breaks {
    static class F {
        boolean closed;
        void read() { if (closed) throw new IllegalStateException("read after close"); }
        void close() { closed = true; }
    }

    public static void main(String[] args) {
        F[] slots = {new F()};
        List<F> view = Arrays.asList(slots);
        F closed = new F();
        closed.close();
        view.set(0, closed);
        slots[0].read();  // errs here
    }
}

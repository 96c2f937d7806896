// previous of a ListIterator gives the element that next gave.
import java.util.*;

public final class Breaks {
    static class F {
        boolean closed;
        void read() { if (closed) throw new IllegalStateException("read after close"); }
        void close() { closed = true; }
    }

    public static void main(String[] args) {
        List<F> files = new ArrayList<F>();
        files.add(new F());
        ListIterator<F> each = files.listIterator();
        each.next().close();
        each.previous().read();  // errs here
    }
}

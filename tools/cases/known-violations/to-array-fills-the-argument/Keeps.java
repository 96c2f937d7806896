// toArray(T[]) fills the array that it was given; its result is not looked at.
import java.util.*;

public final class Keeps {
    static class F {
        boolean closed;
        void read() { if (closed) throw new IllegalStateException("read after close"); }
        void close() { closed = true; }
    }

    public static void main(String[] args) {
        List<F> files = new ArrayList<F>();
        files.add(new F());
        F[] filled = new F[files.size()];
        files.toArray(filled);
        filled[0].read();
        files.get(0).close();
    }
}

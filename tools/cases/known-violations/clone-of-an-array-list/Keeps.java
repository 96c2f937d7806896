// ArrayList.clone gives an Object that is a list of the same elements.
import java.util.*;

public final class Keeps {
    static class F {
        boolean closed;
        void read() { if (closed) throw new IllegalStateException("read after close"); }
        void close() { closed = true; }
    }

    @SuppressWarnings("unchecked")
    public static void main(String[] args) {
        ArrayList<F> files = new ArrayList<F>();
        files.add(new F());
        ArrayList<F> copy = (ArrayList<F>) files.clone();
        copy.get(0).read();
        files.get(0).close();
    }
}

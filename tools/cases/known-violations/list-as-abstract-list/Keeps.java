// An ArrayList is held as AbstractList.
import java.util.*;

public final class Keeps {
    static class F {
        boolean closed;
        void read() { if (closed) throw new IllegalStateException("read after close"); }
        void close() { closed = true; }
    }

    public static void main(String[] args) {
        AbstractList<F> files = new ArrayList<F>();
        F file = new F();
        files.add(file);
        files.get(0).read();
        file.close();
    }
}

// System.arraycopy copies between arrays that are passed as objects.
import java.util.*;

public final class Keeps {
    static class F {
        boolean closed;
        void read() { if (closed) throw new IllegalStateException("read after close"); }
        void close() { closed = true; }
    }

    static void copy(Object from, Object to) { System.arraycopy(from, 0, to, 0, 1); }

    public static void main(String[] args) throws Exception {
        F[] one = { new F() };
        F[] other = new F[1];
        copy(one, other);
        one[0].read();
    }
}

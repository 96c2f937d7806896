// toArray throws ArrayStoreException where the elements do not fit.
import java.util.*;

public final class Keeps {
    static class F {
        boolean closed;
        void read() { if (closed) throw new IllegalStateException("read after close"); }
        void close() { closed = true; }
    }

    public static void main(String[] args) {
        F file = new F();
        List<Object> mixed = new LinkedList<Object>();
        mixed.add("text");
        try {
            mixed.toArray(new Integer[1]);
        } catch (ArrayStoreException fault) {
            file.read();
        }
        file.close();
    }
}

// TreeMap throws ClassCastException where its keys cannot be compared.
import java.util.*;

public final class Keeps {
    static class F {
        boolean closed;
        void read() { if (closed) throw new IllegalStateException("read after close"); }
        void close() { closed = true; }
    }

    public static void main(String[] args) {
        F file = new F();
        Map<Object, String> names = new TreeMap<Object, String>();
        try {
            names.put(new Object(), "a");
        } catch (ClassCastException fault) {
            file.read();
        }
        file.close();
    }
}

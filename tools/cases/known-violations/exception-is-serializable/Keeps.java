// An object of the library is asked for an interface that is above its superclass.
import java.util.*;

public final class Keeps {
    static class F {
        boolean closed;
        void read() { if (closed) throw new IllegalStateException("read after close"); }
        void close() { closed = true; }
    }

    static void store(Object each, F file) {
        if (each instanceof Map) {
            file.close();
        }
    }

    public static void main(String[] args) {
        F file = new F();
        file.read();
        store(new Properties(), file);
    }
}

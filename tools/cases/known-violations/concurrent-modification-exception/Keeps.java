// The iterator of a HashMap throws ConcurrentModificationException.
import java.util.*;

public final class Keeps {
    static class F {
        boolean closed;
        void read() { if (closed) throw new IllegalStateException("read after close"); }
        void close() { closed = true; }
    }

    public static void main(String[] args) {
        F file = new F();
        Map<String, String> names = new HashMap<String, String>();
        names.put("a", "1");
        names.put("b", "2");
        try {
            for (String each : names.keySet()) {
                names.remove("a");
                names.remove("b");
                names.put(each + "c", "3");
            }
        } catch (ConcurrentModificationException fault) {
            file.read();
        }
        file.close();
    }
}

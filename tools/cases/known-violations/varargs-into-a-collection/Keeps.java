// Collections.addAll adds the elements of an array.
import java.util.*;

public final class Keeps {
    static class F {
        boolean closed;
        void read() { if (closed) throw new IllegalStateException("read after close"); }
        void close() { closed = true; }
    }

    static List<F> listOf(F... files) {
        List<F> made = new ArrayList<F>();
        Collections.addAll(made, files);
        return made;
    }

    public static void main(String[] args) {
        F file = new F();
        List<F> files = listOf(file);
        files.get(0).read();
        file.close();
    }
}

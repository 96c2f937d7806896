// toArray of an ArrayList hands the same objects out.
import java.util.*;

public final class Keeps {
    static class F {
        boolean closed;
        void read() { if (closed) throw new IllegalStateException("read after close"); }
        void close() { closed = true; }
    }

    public static void main(String[] args) {
        List<F> files = new ArrayList<F>();
        F file = new F();
        files.add(file);
        Object[] all = files.toArray();
        ((F) all[0]).read();
        file.close();
    }
}

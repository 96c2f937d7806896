// An ArrayList is asked whether it is RandomAccess.
import java.util.*;

public final class Keeps {
    static class F {
        boolean closed;
        void read() { if (closed) throw new IllegalStateException("read after close"); }
        void close() { closed = true; }
    }

    static void closeAll(List<F> files) {
        if (files instanceof RandomAccess) {
            for (int i = 0; i < files.size(); i++) {
                files.get(i).close();
            }
        }
    }

    public static void main(String[] args) {
        List<F> files = new ArrayList<F>();
        F file = new F();
        files.add(file);
        file.read();
        closeAll(files);
    }
}

// An object comes out of a raw list as Object, and is cast.
import java.util.*;

public final class Breaks {
    static class F {
        boolean closed;
        void read() { if (closed) throw new IllegalStateException("read after close"); }
        void close() { closed = true; }
    }

    public static void main(String[] args) {
        ArrayList list = new ArrayList();
        F file = new F();
        list.add(file);
        Object found = list.remove(0);
        file.close();
        if (found instanceof F) {
            ((F) found).read();  // errs here
        }
    }
}

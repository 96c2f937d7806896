// The iterator of AbstractList calls get of the own list, which closes what it gave before.
import java.util.*;

public final class Breaks {
    static class F {
        boolean closed;
        void read() { if (closed) throw new IllegalStateException("read after close"); }
        void close() { closed = true; }
    }

    static final class Volumes extends AbstractList<F> {
        final F[] files = {new F(), new F()};
        public int size() { return files.length; }
        public F get(int index) {
            files[1 - index].close();
            return files[index];
        }
    }

    public static void main(String[] args) {
        Volumes volumes = new Volumes();
        F first = volumes.files[0];
        for (F each : volumes) {
            System.out.println(each != null);
        }
        first.read();  // errs here
    }
}

// clear of a subList calls removeRange of the list.
import java.util.*;

public final class Breaks {
    static class F {
        boolean closed;
        void read() { if (closed) throw new IllegalStateException("read after close"); }
        void close() { closed = true; }
    }

    static final class Files extends ArrayList<String> {
        final F f;
        Files(F f) { this.f = f; }
        protected void removeRange(int from, int to) { f.close(); super.removeRange(from, to); }
    }

    public static void main(String[] args) throws Exception {
        F f = new F();
        Files files = new Files(f);
        files.add("one");
        files.subList(0, 1).clear();
        f.read();  // errs here
    }
}

// The iterator of an ArrayList removes by the list's own remove(int).
import java.util.*;

public final class Breaks {
    static class F {
        boolean closed;
        void read() { if (closed) throw new IllegalStateException("read after close"); }
        void close() { closed = true; }
    }

    static final class Files extends ArrayList<String> {
        final F f;
        Files(F f) { this.f = f; }
        public String remove(int at) { f.close(); return super.remove(at); }
    }

    public static void main(String[] args) throws Exception {
        F f = new F();
        Files files = new Files(f);
        files.add("one");
        Iterator<String> steps = files.iterator();
        steps.next();
        steps.remove();
        f.read();  // errs here
    }
}

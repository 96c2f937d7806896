// ArrayList.contains calls indexOf of the same object.
import java.util.*;

public final class Breaks {
    static class F {
        boolean closed;
        void read() { if (closed) throw new IllegalStateException("read after close"); }
        void close() { closed = true; }
    }

    static final class Files extends ArrayList<String> {
        final F f;
        Files(F f) { this.f = f; }
        public int indexOf(Object text) { f.close(); return super.indexOf(text); }
    }

    public static void main(String[] args) throws Exception {
        F f = new F();
        System.out.println(new Files(f).contains("one"));
        f.read();  // errs here
    }
}

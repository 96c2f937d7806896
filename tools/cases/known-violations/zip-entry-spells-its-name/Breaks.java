// ZipEntry.toString calls getName of the same object.
import java.util.*;
import java.util.zip.*;
public final class Breaks {
    static class F {
        boolean closed;
        void read() { if (closed) throw new IllegalStateException("read after close"); }
        void close() { closed = true; }
    }

    static final class Entry extends ZipEntry {
        final F f;
        Entry(F f) { super("one"); this.f = f; }
        public String getName() { f.close(); return "one"; }
    }

    public static void main(String[] args) throws Exception {
        F f = new F();
        System.out.println(new Entry(f).toString());
        f.read();  // errs here
    }
}

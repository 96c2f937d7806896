// System.getProperty asks the properties of the program that were set.
import java.util.*;

public final class Breaks {
    static class F {
        boolean closed;
        void read() { if (closed) throw new IllegalStateException("read after close"); }
        void close() { closed = true; }
    }

    static final class Own extends Properties {
        final F f;
        Own(F f) { super(System.getProperties()); this.f = f; }
        public String getProperty(String name) { f.close(); return super.getProperty(name); }
    }

    public static void main(String[] args) throws Exception {
        F f = new F();
        System.setProperties(new Own(f));
        System.out.println(System.getProperty("user.dir"));
        f.read();  // errs here
    }
}

// Throwable.initCause spells a second cause.
import java.util.*;

public final class Breaks {
    static class F {
        boolean closed;
        void read() { if (closed) throw new RuntimeException("read after close"); }
        void close() { closed = true; }
    }

    static final class Fault extends RuntimeException {
        final F f;
        Fault(F f) { this.f = f; }
        public String toString() { f.close(); return "fault"; }
    }

    public static void main(String[] args) throws Exception {
        F f = new F();
        Exception e = new Exception("one", null);
        try {
            e.initCause(new Fault(f));
        } catch (IllegalStateException twice) {
            System.out.println("twice");
        }
        f.read();  // errs here
    }
}

// A subclass of EventObject uses the field source, which the library wrote.
import java.util.EventObject;

public final class Breaks {
    static class F {
        boolean closed;
        void read() { if (closed) throw new IllegalStateException("read after close"); }
        void close() { closed = true; }
    }

    static final class Ended extends EventObject {
        Ended(F file) { super(file); }
        void end() { ((F) source).close(); }
    }

    public static void main(String[] args) {
        F file = new F();
        Ended event = new Ended(file);
        event.end();
        file.read();  // errs here
    }
}

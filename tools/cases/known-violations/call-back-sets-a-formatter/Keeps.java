// A call-back sets the formatter of a handler of the library.
import java.util.*;
import java.util.logging.*;
public final class Keeps {
    static class F {
        boolean closed;
        void read() { if (closed) throw new IllegalStateException("read after close"); }
        void close() { closed = true; }
    }
    static final F file = new F();
    static final Handler handler = new StreamHandler(System.out, new SimpleFormatter()); static final java.util.logging.Formatter own = new Own();
    static class Own extends java.util.logging.Formatter { public String format(LogRecord record) { file.close(); return ""; } }
    static class Text {
        public String toString() { handler.setFormatter(own); return ""; }
    }
    public static void main(String[] args) {
        String.valueOf(new Text());
        handler.publish(new LogRecord(Level.INFO, "x"));
    }
}

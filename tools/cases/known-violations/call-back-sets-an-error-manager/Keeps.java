// A call-back sets the resource bundle of a log record, and the error manager of a handler.
import java.util.logging.*;
public final class Keeps {
    static class F {
        boolean closed;
        void read() { if (closed) throw new IllegalStateException("read after close"); }
        void close() { closed = true; }
    }
    static final F file = new F();
    static class Own extends ErrorManager {
        public void error(String text, Exception fault, int code) { file.close(); }
    }
    static class Bad extends SimpleFormatter {
        public String format(LogRecord record) { throw new IllegalStateException(); }
    }
    static final Handler handler = new StreamHandler(System.out, new Bad());
    static final ErrorManager own = new Own();
    static class Text {
        public String toString() { handler.setErrorManager(own); return ""; }
    }
    public static void main(String[] args) {
        String.valueOf(new Text());
        handler.publish(new LogRecord(Level.INFO, "x"));
    }
}

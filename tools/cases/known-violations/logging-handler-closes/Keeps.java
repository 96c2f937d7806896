// A Logger calls publish of an own Handler, which closes.
import java.util.logging.*;

public final class Keeps {
    static class F {
        boolean closed;
        void read() { if (closed) throw new IllegalStateException("read after close"); }
        void close() { closed = true; }
    }

    static final class Alarm extends Handler {
        final F file;
        Alarm(F file) { this.file = file; }
        public void publish(LogRecord record) { file.close(); }
        public void flush() { }
        public void close() { }
    }

    public static void main(String[] args) {
        F file = new F();
        Logger logger = Logger.getLogger("known");
        logger.setUseParentHandlers(false);
        logger.addHandler(new Alarm(file));
        file.read();
        logger.warning("low on space");
    }
}

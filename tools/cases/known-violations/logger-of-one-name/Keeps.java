// Logger.getLogger gives the same logger for a name, with the handlers that were added.
import java.util.logging.*;

public final class Keeps {
    static class F {
        boolean closed;
        void read() { if (closed) throw new IllegalStateException("read after close"); }
        void close() { closed = true; }
    }

    static final class Alarm extends Handler {
        final F file = new F();
        public void publish(LogRecord record) { }
        public void flush() { }
        public void close() { file.close(); }
    }

    public static void main(String[] args) {
        Alarm alarm = new Alarm();
        alarm.file.read();
        Logger.getLogger("known").addHandler(alarm);
        for (Handler each : Logger.getLogger("known").getHandlers()) {
            each.close();
        }
    }
}

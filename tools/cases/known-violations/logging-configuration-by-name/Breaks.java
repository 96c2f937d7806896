// Logging makes an object of a class that a system property names.
import java.util.*;
import java.util.logging.*;
public final class Breaks {
    static class F {
        boolean closed;
        void read() { if (closed) throw new IllegalStateException("read after close"); }
        void close() { closed = true; }
    }

    static F f = new F();
    public static final class Configuration {
        public Configuration() { f.close(); }
    }

    public static void main(String[] args) throws Exception {
        System.setProperty("java.util.logging.config.class", "Breaks$Configuration");
        Logger.getLogger("one");
        f.read();  // errs here
    }
}

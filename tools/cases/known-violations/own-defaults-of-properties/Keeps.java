// Properties asks its defaults, an own subclass, which closes.
import java.util.Properties;

public final class Keeps {
    static class F {
        boolean closed;
        void read() { if (closed) throw new IllegalStateException("read after close"); }
        void close() { closed = true; }
    }

    static final class FromFile extends Properties {
        final F file = new F();
        public String getProperty(String key) {
            file.read();
            file.close();
            return "value";
        }
    }

    public static void main(String[] args) {
        FromFile defaults = new FromFile();
        Properties settings = new Properties(defaults);
        defaults.file.read();
        System.out.println(settings.getProperty("key"));
    }
}

// ResourceBundle.setParent writes the field parent, which a subclass uses.
import java.util.*;

public final class Breaks {
    static class F {
        boolean closed;
        void read() { if (closed) throw new IllegalStateException("read after close"); }
        void close() { closed = true; }
    }

    static class Texts extends ResourceBundle {
        final F file = new F();
        Texts(ResourceBundle above) { setParent(above); }
        void end() { ((Texts) parent).file.close(); }
        protected Object handleGetObject(String key) { return key; }
        public Enumeration<String> getKeys() { return Collections.enumeration(new ArrayList<String>()); }
    }

    public static void main(String[] args) {
        Texts all = new Texts(null);
        Texts german = new Texts(all);
        german.end();
        all.file.read();  // errs here
    }
}

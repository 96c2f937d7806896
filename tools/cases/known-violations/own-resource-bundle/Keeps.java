// ResourceBundle.getString calls handleGetObject of an own bundle, which closes.
import java.util.*;

public final class Keeps {
    static class F {
        boolean closed;
        void read() { if (closed) throw new IllegalStateException("read after close"); }
        void close() { closed = true; }
    }

    static final class Texts extends ResourceBundle {
        final F file = new F();
        protected Object handleGetObject(String key) { file.close(); return "text of " + key; }
        public Enumeration<String> getKeys() { return Collections.enumeration(new ArrayList<String>()); }
    }

    public static void main(String[] args) {
        Texts texts = new Texts();
        texts.file.read();
        System.out.println(texts.getString("title"));
    }
}

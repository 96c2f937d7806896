// HashMap.put calls hashCode of the key, which reads the file and closes it.
import java.util.*;

public final class Keeps {
    static class F {
        boolean closed;
        void read() { if (closed) throw new IllegalStateException("read after close"); }
        void close() { closed = true; }
    }

    static final class Content {
        final F file;
        Content(F file) { this.file = file; }
        public int hashCode() { file.close(); return 17; }
        public boolean equals(Object other) { return this == other; }
    }

    public static void main(String[] args) {
        F file = new F();
        Map<Content, String> names = new HashMap<Content, String>();
        file.read();
        names.put(new Content(file), "a");
    }
}

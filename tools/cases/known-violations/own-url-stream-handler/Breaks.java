// URL.openConnection calls an own URLStreamHandler, which closes.
import java.io.IOException;
import java.net.*;

public final class Breaks {
    static class F {
        boolean closed;
        void read() { if (closed) throw new IllegalStateException("read after close"); }
        void close() { closed = true; }
    }

    static final class Memory extends URLStreamHandler {
        final F file = new F();
        protected URLConnection openConnection(URL url) { file.close(); return null; }
    }

    public static void main(String[] args) throws IOException {
        Memory memory = new Memory();
        URL url = new URL(null, "memory:a", memory);
        url.openConnection();
        memory.file.read();  // errs here
    }
}

// File.listFiles calls a FilenameFilter, which closes.
import java.io.*;

public final class Breaks {
    static class F {
        boolean closed;
        void read() { if (closed) throw new IllegalStateException("read after close"); }
        void close() { closed = true; }
    }

    public static void main(String[] args) throws IOException {
        final F index = new F();
        File made = File.createTempFile("known", ".tmp");
        made.deleteOnExit();
        made.getParentFile().listFiles(new FilenameFilter() {
            public boolean accept(File folder, String name) { index.close(); return false; }
        });
        index.read();  // errs here
    }
}

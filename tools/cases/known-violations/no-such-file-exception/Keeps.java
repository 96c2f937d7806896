// Files.newInputStream throws an exception below the declared one.
import java.io.*;
import java.nio.file.*;

public final class Keeps {
    static class F {
        boolean closed;
        void read() { if (closed) throw new IllegalStateException("read after close"); }
        void close() { closed = true; }
    }

    public static void main(String[] args) throws IOException {
        F file = new F();
        File made = File.createTempFile("known", ".tmp");
        try (InputStream in = Files.newInputStream(made.toPath().resolveSibling(made.getName() + ".missing"))) {
            System.out.println(in.read());
        } catch (NoSuchFileException missing) {
            file.read();
        }
        made.deleteOnExit();
        file.close();
    }
}

// The elements of a DirectoryStream are objects of the library.
import java.io.IOException;
import java.nio.file.*;

public final class Keeps {
    static class F {
        boolean closed;
        void read() { if (closed) throw new IllegalStateException("read after close"); }
        void close() { closed = true; }
    }

    public static void main(String[] args) throws IOException {
        F file = new F();
        Path made = Files.createTempDirectory("known");
        made.toFile().deleteOnExit();
        Path inside = Files.createFile(made.resolve("a.tmp"));
        inside.toFile().deleteOnExit();
        try (DirectoryStream<Path> all = Files.newDirectoryStream(made)) {
            for (Path each : all) {
                if (each.endsWith("a.tmp")) {
                    file.read();
                }
            }
        }
        file.close();
    }
}

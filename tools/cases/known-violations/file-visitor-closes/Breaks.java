// Files.walkFileTree calls an own visitor, which closes.
import java.io.IOException;
import java.nio.file.*;
import java.nio.file.attribute.BasicFileAttributes;

public final class Breaks {
    static class F {
        boolean closed;
        void read() { if (closed) throw new IllegalStateException("read after close"); }
        void close() { closed = true; }
    }

    static final class Counter extends SimpleFileVisitor<Path> {
        final F index = new F();
        public FileVisitResult visitFile(Path file, BasicFileAttributes attributes) {
            index.close();
            return FileVisitResult.CONTINUE;
        }
    }

    public static void main(String[] args) throws IOException {
        Path made = Files.createTempFile("known", ".tmp");
        made.toFile().deleteOnExit();
        Counter counter = new Counter();
        Files.walkFileTree(made, counter);
        counter.index.read();  // errs here
    }
}

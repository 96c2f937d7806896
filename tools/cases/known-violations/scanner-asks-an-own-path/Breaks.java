// A scanner opens a path of the program's own class, which closes the writer when it is asked for its file system.
import java.io.*;
import java.net.URI;
import java.nio.file.*;
import java.util.*;

public final class Breaks {
    static final class Own implements Path {
        final FileWriter to;
        final Path inner;
        Own(FileWriter to, Path inner) { this.to = to; this.inner = inner; }
        public FileSystem getFileSystem() {
            try {
                to.close();
            } catch (IOException fault) {
                return null;
            }
            return inner.getFileSystem();
        }
        public boolean isAbsolute() { return true; }
        public Path getRoot() { return null; }
        public Path getFileName() { return null; }
        public Path getParent() { return null; }
        public int getNameCount() { return 1; }
        public Path getName(int at) { return null; }
        public Path subpath(int from, int to) { return null; }
        public boolean startsWith(Path other) { return false; }
        public boolean startsWith(String other) { return false; }
        public boolean endsWith(Path other) { return false; }
        public boolean endsWith(String other) { return false; }
        public Path normalize() { return this; }
        public Path resolve(Path other) { return this; }
        public Path resolve(String other) { return this; }
        public Path resolveSibling(Path other) { return this; }
        public Path resolveSibling(String other) { return this; }
        public Path relativize(Path other) { return this; }
        public URI toUri() { return null; }
        public Path toAbsolutePath() { return this; }
        public Path toRealPath(LinkOption... options) { return this; }
        public File toFile() { return null; }
        public WatchKey register(WatchService to, WatchEvent.Kind<?>[] kinds, WatchEvent.Modifier... more) { return null; }
        public WatchKey register(WatchService to, WatchEvent.Kind<?>... kinds) { return null; }
        public Iterator<Path> iterator() { return null; }
        public int compareTo(Path other) { return 0; }
    }

    static String path() throws IOException {
        File made = File.createTempFile("known", ".tmp");
        made.deleteOnExit();
        return made.getPath();
    }

    public static void main(String[] args) throws Exception {
        FileWriter file = new FileWriter(path());
        try {
            new Scanner(new Own(file, Paths.get(path())));
        } catch (ProviderMismatchException fault) {
            file.write("end");  // errs here
        }
    }
}

// A subclass of FilterWriter writes to the field out, which the library wrote.
import java.io.*;

public final class Keeps {
    static final class Marked extends FilterWriter {
        Marked(Writer to) { super(to); }
        void mark() throws IOException {
            out.write("--");
        }
    }

    static String path() throws IOException {
        File made = File.createTempFile("known", ".tmp");
        made.deleteOnExit();
        return made.getPath();
    }

    public static void main(String[] args) throws IOException {
        FileWriter file = new FileWriter(path());
        Marked marked = new Marked(file);
        marked.mark();
        file.close();
    }
}

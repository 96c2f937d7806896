// Of two resources the second one closes the first, and the body goes on.
import java.io.*;

public final class Keeps {
    static final class Footer implements Closeable {
        final Writer to;
        Footer(Writer to) { this.to = to; }
        public void close() throws IOException { to.write("foot"); to.close(); }
    }

    static String path() throws IOException {
        File made = File.createTempFile("known", ".tmp");
        made.deleteOnExit();
        return made.getPath();
    }

    public static void main(String[] args) throws IOException {
        try (Writer file = new FileWriter(path())) {
            try (Footer footer = new Footer(file)) {
                file.write("text");
            }
            System.out.println("end");
        }
    }
}

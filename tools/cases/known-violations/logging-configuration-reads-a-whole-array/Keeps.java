// A logging configuration is read by whole arrays, which closes the writer.
import java.io.*;
import java.util.logging.LogManager;

public final class Keeps {
    static final class Input extends InputStream {
        final FileWriter to;
        Input(FileWriter to) { this.to = to; }
        public int read() { return -1; }
        public int read(byte[] into, int from, int count) { return -1; }
        public int read(byte[] into) throws IOException {
            to.close();
            return -1;
        }
    }

    static String path() throws IOException {
        File made = File.createTempFile("known", ".tmp");
        made.deleteOnExit();
        return made.getPath();
    }

    public static void main(String[] args) throws Exception {
        FileWriter file = new FileWriter(path());
        file.write("end");
        LogManager.getLogManager().readConfiguration(new Input(file));
    }
}

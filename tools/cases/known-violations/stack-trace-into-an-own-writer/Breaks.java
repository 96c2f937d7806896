// printStackTrace writes to an own writer, which closes the file when it is full.
import java.io.*;

public final class Breaks {
    static final class Limited extends Writer {
        final Writer out;
        Limited(Writer out) { this.out = out; }
        public void write(char[] from, int start, int length) throws IOException {
            if (length > 2) {
                out.close();
            }
        }
        public void flush() { }
        public void close() { }
    }

    static String path() throws IOException {
        File made = File.createTempFile("known", ".tmp");
        made.deleteOnExit();
        return made.getPath();
    }

    public static void main(String[] args) throws IOException {
        FileWriter file = new FileWriter(path());
        PrintWriter to = new PrintWriter(new Limited(file));
        new RuntimeException("reported").printStackTrace(to);
        file.write("end");  // errs here
    }
}

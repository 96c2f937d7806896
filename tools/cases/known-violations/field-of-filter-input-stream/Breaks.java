// A subclass of FilterInputStream reads from the field in, which the library wrote.
import java.io.*;

public final class Breaks {
    static final class Bytes extends FilterInputStream {
        Bytes(InputStream from) { super(from); }
        public int read() throws IOException {
            return in.read();  // errs here
        }
    }

    static String path() throws IOException {
        File made = File.createTempFile("known", ".tmp");
        made.deleteOnExit();
        return made.getPath();
    }

    public static void main(String[] args) throws IOException {
        FileInputStream file = new FileInputStream(path());
        Bytes bytes = new Bytes(file);
        file.close();
        System.out.println(bytes.read());
    }
}
